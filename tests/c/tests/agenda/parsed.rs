//! An agenda taken apart again. Blanks are taken out of jobs: where a line is broken, they aren't shown.

use c::shown::MONTHS;
use reference::calendar::minute_of;

#[derive(Debug, Default, PartialEq, Eq)]
pub struct Agenda {
    /// Words, how many times, and the job.
    pub often: Vec<(String, u64, String)>,
    /// The minute, the entry's own hours, and the job.
    pub firings: Vec<(u64, String, String)>,
    /// Of so many days.
    pub left_out: Option<[u64; 2]>,
    pub boot: Vec<String>,
    /// When, the entry's own hours, and the job.
    pub others: Vec<(String, String, String)>,
}

pub fn squeezed(job: &str) -> String {
    job.replace(' ', "")
}

/// Where the lines of an agenda stand.
#[derive(Clone, Copy)]
enum Section {
    Title,
    Often,
    Month([u64; 2]),
    Boot,
    Others,
}

fn section(line: &str) -> Option<Section> {
    match line {
        "Often" => return Some(Section::Often),
        "At boot" => return Some(Section::Boot),
        "Not in this span" => return Some(Section::Others),
        _ => {}
    }
    let (name, year) = line.split_once(' ')?;
    let month = MONTHS.iter().position(|&month| month == name)?;
    Some(Section::Month([year.parse().ok()?, month as u64 + 1]))
}

/// The clock in brackets before a job, and the job.
fn clock_and_job(text: &str) -> (String, String) {
    match text.split_once("] ") {
        Some((clock, job)) if clock.starts_with('[') && clock.len() == 17 => {
            (format!("{clock}]"), squeezed(job))
        }
        _ => (String::new(), squeezed(text)),
    }
}

/// A line that goes on with what stands on the line before: behind more blanks than that.
fn rest(line: &str, lead: usize) -> Option<&str> {
    let blanks = line.len() - line.trim_start_matches(' ').len();
    (blanks == lead + 2).then(|| line.trim_start())
}

#[derive(Default)]
struct Parser {
    agenda: Agenda,
    words: String,
    day: u64,
    /// The columns before the last job.
    lead: usize,
}

impl Parser {
    fn often(&mut self, line: &str) {
        if let Some(job) = line
            .strip_prefix("    ")
            .filter(|job| !job.starts_with(' '))
        {
            let (words, count) = self.words.rsplit_once(", ").expect("words and a count");
            let count = count
                .strip_suffix(" times:")
                .or(count.strip_suffix(" time:"));
            let count = count.expect(line).parse().expect("a number");
            let words = words.to_string();
            self.agenda.often.push((words, count, squeezed(job)));
            self.lead = 4;
        } else if let Some(rest) = rest(line, self.lead) {
            match self.lead {
                0 => self.words += &format!(" {rest}"),
                _ => self.agenda.often.last_mut().expect("a job").2 += &squeezed(rest),
            }
        } else {
            assert!(!line.starts_with(' '), "{line}");
            self.words = line.to_string();
            self.lead = 0;
        }
    }

    fn firing(&mut self, [year, month]: [u64; 2], line: &str) {
        if let Some(rest) = line.strip_prefix("Days without any are left out: ") {
            let numbers = rest
                .strip_suffix('.')
                .and_then(|rest| rest.split_once(" of "));
            let (days, all) = numbers.expect("two numbers");
            self.agenda.left_out = Some([days, all].map(|text| text.parse().expect("a number")));
            return;
        }
        if let Some(rest) = rest(line, self.lead) {
            self.agenda.firings.last_mut().expect("a firing").2 += &squeezed(rest);
            return;
        }
        if !line.starts_with("      ") {
            self.day = line[..2].trim().parse().expect("a day");
        }
        let part = |from: usize| line[from..from + 2].parse().expect(line);
        let (hour, minute) = (part(8), part(11));
        let minute = minute_of(year, month, self.day, hour, minute).expect("a date");
        if !line.starts_with("      ") {
            let names = ["Thu", "Fri", "Sat", "Sun", "Mon", "Tue", "Wed"];
            assert_eq!(&line[3..6], names[(minute / 1440 % 7) as usize], "{line}");
        }
        assert_eq!((&line[6..8], &line[13..15]), ("  ", "  "), "{line}");
        let (clock, job) = clock_and_job(&line[15..]);
        self.lead = 15 + if clock.is_empty() { 0 } else { 19 };
        self.agenda.firings.push((minute, clock, job));
    }

    fn boot(&mut self, line: &str) {
        match rest(line, 0) {
            Some(rest) => *self.agenda.boot.last_mut().expect("a job") += &squeezed(rest),
            None => self.agenda.boot.push(squeezed(line)),
        }
    }

    fn other(&mut self, line: &str) {
        match rest(line, self.lead) {
            Some(rest) => self.agenda.others.last_mut().expect("a job").2 += &squeezed(rest),
            None => {
                let (clock, job) = clock_and_job(&line[22..]);
                self.lead = 22 + if clock.is_empty() { 0 } else { 19 };
                let when = line[..20].trim_end().to_string();
                self.agenda.others.push((when, clock, job));
            }
        }
    }
}

pub fn parsed(text: &str) -> Agenda {
    let mut parser = Parser::default();
    let mut now = Section::Title;
    for line in text.lines().filter(|line| !line.is_empty()) {
        if let Some(next) = section(line) {
            now = next;
            parser.lead = 0;
            continue;
        }
        match now {
            Section::Title => {}
            Section::Often => parser.often(line),
            Section::Month(month) => parser.firing(month, line),
            Section::Boot => parser.boot(line),
            Section::Others => parser.other(line),
        }
    }
    parser.agenda
}
