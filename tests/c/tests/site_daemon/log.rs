//! What the log should say, by the reference program's line.

use reference::calendar::date_of;
use reference::command::split;
use reference::queue::Queue;
use reference::table::Table;

/// As `site_daemon.c` has it.
const LATE_MOST: u64 = 15;

const WEEKDAYS: [&str; 7] = ["Sun", "Mon", "Tue", "Wed", "Thu", "Fri", "Sat"];

pub fn date(minute: u64) -> String {
    let [year, month, day, hour, minute, weekday] = date_of(minute).expect("a date").parts();
    let weekday = WEEKDAYS[weekday as usize];
    format!("{year:04}-{month:02}-{day:02} {weekday} {hour:02}:{minute:02}")
}

/// A line of a clock that is handed in: a minute alone, or the seconds of the clock and of the steady one.
#[derive(Clone, Copy)]
pub enum Shown {
    Minute(u64),
    Seconds(u64, u64),
}

impl Shown {
    pub fn line(self) -> String {
        match self {
            Shown::Minute(minute) => format!("{minute}\n"),
            Shown::Seconds(wall, steady) => format!("{wall} {steady}\n"),
        }
    }

    /// What both clocks show. A minute alone: the clock went there by itself, or was set at once.
    fn after(self, now: Clocks) -> Clocks {
        match self {
            Shown::Seconds(wall, steady) => Clocks { wall, steady },
            Shown::Minute(minute) => {
                let by = (60 * minute).checked_sub(now.wall);
                let passed = by.filter(|&by| by <= 60 * LATE_MOST);
                Clocks {
                    wall: 60 * minute,
                    steady: now.steady + passed.unwrap_or(0),
                }
            }
        }
    }
}

#[derive(Clone, Copy, Default)]
struct Clocks {
    wall: u64,
    steady: u64,
}

/// A daemon's state: who waits, each with the minute since which it does; the last minute that was announced, and what the
/// clocks showed then; when it wakes, by the steady clock, and what they showed at last.
pub struct Daemon<'a> {
    table: Table<'a>,
    queue: Queue,
    since: Vec<u64>,
    minute: u64,
    then: Clocks,
    now: Clocks,
    wake: u64,
    pace: u64,
    pub lines: Vec<String>,
}

impl<'a> Daemon<'a> {
    pub fn start(table: Table<'a>, pace: u64, first: Shown) -> Daemon<'a> {
        let queue = Queue::fresh(&table);
        let now = first.after(Clocks::default());
        let minute = now.wall / 60;
        let since = vec![minute; queue.waiting.len()];
        let lines = vec![format!("{}  start: {} wait", date(minute), since.len())];
        let mut daemon = Daemon {
            table,
            queue,
            since,
            minute,
            then: now,
            now,
            wake: 0,
            pace,
            lines,
        };
        daemon.live(minute, pace);
        daemon.sleep();
        daemon
    }

    /// The clocks show something. Before it wakes, the daemon doesn't look.
    pub fn shown(&mut self, shown: Shown) {
        self.now = shown.after(self.now);
        if matches!(shown, Shown::Minute(_)) || self.now.steady >= self.wake {
            self.look();
            self.sleep();
        }
    }

    fn look(&mut self) {
        let Clocks { wall, steady } = self.now;
        // What the clock would show if nobody had set it.
        let unset = self.then.wall + steady - self.then.steady;
        let was_set = wall.abs_diff(unset) >= 60;
        let passed = if was_set { unset } else { wall } / 60;
        let announced = self.minute;
        for minute in announced + 1..=passed {
            let is_late = passed - minute >= LATE_MOST;
            self.live(minute, if is_late { 0 } else { self.pace });
        }
        if was_set {
            self.jump(wall / 60);
        }
        if was_set || passed > announced {
            self.then = self.now;
        }
    }

    /// Who has waited for some minutes has waited for as many after the jump.
    fn jump(&mut self, to: u64) {
        let by = to as i64 - self.minute as i64;
        self.lines
            .push(format!("{}  the clock jumped by {by} min", date(to)));
        let waited = |since: &u64| to.wrapping_sub(self.minute.wrapping_sub(*since));
        self.since = self.since.iter().map(waited).collect();
        self.live(to, self.pace);
    }

    /// It sleeps until the clock would show another minute.
    fn sleep(&mut self) {
        let next = 60 * (self.minute + 1);
        self.wake = self.now.steady + next.saturating_sub(self.now.wall).min(60);
    }

    /// Goes on with a new table. Who stays is found out for each by itself.
    pub fn reload(&mut self, new: Table<'a>) {
        // A job stays if one more waits when it is reloaded with those before it.
        let before = |count: usize| {
            let mut front = Queue {
                waiting: self.queue.waiting[..count].to_vec(),
                mark: None,
            };
            front.reload(&self.table, &new).expect("a queue")
        };
        let kept: Vec<u64> = (0..self.since.len())
            .filter(|&place| before(place) < before(place + 1))
            .map(|place| self.since[place])
            .collect();
        let waited = self.queue.waiting.len();
        let waiting = self.queue.reload(&self.table, &new).expect("a line");
        let date = date(self.minute);
        self.lines
            .push(format!("{date}  reload: {waiting} of {waited} wait on"));
        self.since = kept;
        self.table = new;
    }

    pub fn end(mut self) -> Vec<String> {
        let lines = self
            .queue
            .waiting
            .iter()
            .map(|&entry| self.line(entry).to_string());
        let lines: Vec<String> = lines.collect();
        let which = match lines.is_empty() {
            true => String::new(),
            false => format!(", lines {}", lines.join(" ")),
        };
        let end = format!("{}  end: {} wait{which}", date(self.minute), lines.len());
        self.lines.push(end);
        self.lines
    }

    fn live(&mut self, minute: u64, requests: u64) {
        self.minute = minute;
        let joined = self.queue.tick(&self.table, minute).expect("a line");
        self.since.extend((0..joined).map(|_| minute));
        for _ in 0..requests {
            let Some(entry) = self.queue.pop(&self.table).expect("a line") else {
                return;
            };
            let waited = minute.wrapping_sub(self.since.remove(0));
            self.job(entry, minute, waited);
        }
    }

    fn line(&self, entry: u64) -> u64 {
        self.table.places[entry as usize].line
    }

    fn job(&mut self, entry: u64, minute: u64, waited: u64) {
        let line = self.line(entry);
        let command = split(self.table.entries[entry as usize].command);
        let input = command
            .input
            .map(|input| format!(" input {}", bars(&input)));
        self.lines.push(format!(
            "{}  line {line} after {waited} min: {}{}",
            date(minute),
            bars(&command.shell),
            input.unwrap_or_default()
        ));
        let before = self.table.settings.iter().filter(|(of, _)| *of < line);
        let settings = before.map(|(_, setting)| {
            let [name, value] = [setting.name, setting.value].map(|part| part.of(self.table.bytes));
            format!("{:22}with {} = {}", "", bars(name), bars(value))
        });
        let settings: Vec<String> = settings.collect();
        self.lines.extend(settings);
    }
}

fn bars(text: &[u8]) -> String {
    let byte = |&byte: &u8| match byte {
        b'\n' => "\\n".to_string(),
        b'\\' => "\\\\".to_string(),
        b' '..=b'~' => (byte as char).to_string(),
        _ => format!("\\x{byte:02x}"),
    };
    let shown: String = text.iter().map(byte).collect();
    format!("|{shown}|")
}
