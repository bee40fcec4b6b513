//! Columns and pages: nothing is wider than 72 columns or longer than 60 lines, and nothing is torn.

use crate::parsed::{parsed, squeezed};
use crate::{agenda_in, agenda_of};
use c::shown::{reading, text as shown, typed};
use c::{all, root, word};
use reference::random::Random;
use reference::table::{samples, Rules};

const COLUMNS: usize = 72;
const LINES: usize = 60;

/// Each page without what stands at its top.
fn pages<'a>(text: &'a str, name: &str, span: &str) -> Vec<&'a str> {
    let pages = text.split('\u{c}').enumerate();
    pages
        .map(|(before, page)| {
            let (top, rest) = page.split_once("\n\n").expect("a top");
            let number = format!("page {}", before + 1);
            let start = format!("{name}  {span}  ");
            assert_eq!(top.chars().count(), COLUMNS, "{top}");
            assert!(top.starts_with(&start) && top.ends_with(&number), "{top}");
            assert_eq!(top[start.len()..].trim(), number);
            let lines = page.lines().count();
            assert!(
                lines <= LINES && page.ends_with('\n'),
                "{lines} lines:\n{page}"
            );
            rest
        })
        .collect()
}

/// A page starts with a heading or a sentence, and it doesn't end with a heading or a blank line.
fn is_whole(page: &str) -> bool {
    let last = page.lines().last().expect("a line");
    let is_month =
        last.split(' ').count() == 2 && last.ends_with(|last: char| last.is_ascii_digit());
    let is_heading = is_month || ["Often", "At boot", "Not in this span"].contains(&last);
    !page.starts_with(['\n', ' ']) && !last.is_empty() && !is_heading
}

/// A command of words that have up to so many letters.
fn command(random: &mut Random, bytes: usize) -> String {
    let mut command = "c".to_string();
    while command.len() < bytes {
        let most = random.pick(&[3, 20, 90]);
        let length = 1 + random.below(most) as usize;
        let letter = random.pick(&["x", "y", "\u{e9}", "\u{20ac}", "\u{1f319}"]);
        command += random.pick(&[" ", " ", "  ", "\t", ""]);
        command += &letter.repeat(length);
    }
    let end = (0..=bytes).rev().find(|&end| command.is_char_boundary(end));
    command.truncate(end.expect("a boundary"));
    command
}

/// Whether no line has more than 72 characters. A form feed has no column.
fn is_narrow(text: &str) -> bool {
    let mut lines = text.split(['\n', '\u{c}']);
    lines.all(|line| line.chars().count() <= COLUMNS)
}

/// Long commands, with and without pages: the same is told in both, and nothing is too wide, too long or torn.
#[test]
fn random_pages() {
    let agenda = agenda_in("agenda-pages");
    let mut random = Random::seeded();
    let mut most = 0;
    for turn in 0..61 {
        let mut table = String::new();
        // The last table is long, so that the number of pages asked for at the end doesn't hang on a lucky seed.
        let count = if turn == 60 {
            100
        } else {
            1 + random.below(12)
        };
        for _ in 0..count {
            let length = random.pick(&[1, 20, 100, 500, 900]);
            let zone = random.pick(&["", "", "CRON_TZ=+12:45\n", "CRON_TZ=-03:30\n"]);
            let time = random.pick(&[
                "0 3 * * *",
                "@monthly",
                "*/9 * * * 2-5",
                "@reboot",
                "0 0 30 2 *",
                "1 2,3 */3 1 1",
            ]);
            table += &format!("{zone}{time} {}\n", command(&mut random, length));
        }
        let from = 29_905_920 + 1_440 * random.below(10_000);
        let to = from + 1_440 * random.pick(&[1, 5, 50, 100]) - 1;
        let (first, last) = (typed(from), typed(to));
        let span = format!("{} to {}, UTC", &first[..10], &last[..10]);
        let more: &[&str] = [&["-"][..], &["--local", "-"]][turn % 2];
        let plain = [more, &[&first, &last]].concat();
        let with_pages = [&["--page"], &plain[..]].concat();
        let text = agenda_of(&agenda, &with_pages, table.as_bytes());
        assert!(is_narrow(&text), "{table}");
        let pages = pages(&text, "-", &span);
        for page in &pages {
            assert!(is_whole(page), "{page}");
        }
        most = most.max(pages.len());
        let whole = agenda_of(&agenda, &plain, table.as_bytes());
        assert!(is_narrow(&whole), "{table}");
        assert_eq!(parsed(&pages.concat()), parsed(&whole), "{table}");
        assert!(!whole.contains('\u{c}') && !whole.contains("page 1"));
        let jobs = table.lines().filter(|line| !line.starts_with("CRON_TZ"));
        let told = squeezed(&whole.replace('\n', ""));
        for job in jobs {
            let at = job.find('c').expect("a command");
            let job = squeezed(&job[at..].replace('\t', ""));
            assert!(told.contains(&job), "{job}\n{whole}");
        }
    }
    assert!(most > 20, "{most} pages");
}

/// Bytes that are no UTF-8 are a question mark each, whatever stands beside them.
#[test]
fn bytes_that_are_no_characters() {
    let agenda = agenda_in("agenda-bytes");
    let mut random = Random::seeded();
    for _ in 0..100 {
        let mut table = b"0 7 * * * c".to_vec();
        let some =
            b"\xc3\xa9\xe2\x82\xac\xf0\x9f\x8c\x99\xed\xa0\x80\xf4\x90\xc0\xaf\xff\xe0\x80x ";
        table.extend((0..600).map(|_| random.pick(some)));
        let shell = squeezed(&shown(&table[10..]));
        table.push(b'\n');
        let text = agenda_of(&agenda, &["-", "2026-11-16", "2026-11-16"], &table);
        assert!(is_narrow(&text), "{}", table.escape_ascii());
        let told = squeezed(&text.replace('\n', ""));
        assert!(told.ends_with(&shell), "{}", table.escape_ascii());
    }
}

#[test]
fn random_tables_are_narrow() {
    let agenda = agenda_in("agenda-narrow");
    let mut random = Random::seeded();
    for rules in Rules::ALL.repeat(30) {
        let table = samples::table(&mut random, rules, 12);
        let arguments = [&reading(rules)[..], &["-", "2026-11-01", "2026-12-31"]].concat();
        let text = agenda_of(&agenda, &arguments, &table);
        assert!(is_narrow(&text), "{}", table.escape_ascii());
    }
}

/// A page that begins within a month and a day has both again, and the last line of a page may be the sixtieth.
#[test]
fn a_turned_page() {
    let agenda = agenda_in("agenda-turned");
    let table: String = (0..30)
        .map(|job| format!("0 7 * * * job {job}\n"))
        .collect();
    let text = agenda_of(
        &agenda,
        &["--page", "-", "2026-11-14", "2026-11-16"],
        table.as_bytes(),
    );
    let pages = pages(&text, "-", "2026-11-14 to 2026-11-16, UTC");
    let [first, second] = pages[..] else {
        panic!("two pages: {text}");
    };
    assert!(
        first.starts_with("November 2026\n\n14 Sat  07:00  job 0\n"),
        "{first}"
    );
    assert!(first.ends_with("        07:00  job 25\n"), "{first}");
    assert_eq!(first.lines().count(), LINES - 2);
    assert!(
        second.starts_with("November 2026\n\n15 Sun  07:00  job 26\n        07:00  job 27\n"),
        "{second}"
    );
    // Between weeks there is a blank line.
    assert!(
        second.contains("        07:00  job 29\n\n16 Mon  07:00  job 0\n"),
        "{second}"
    );
}

/// What is often has its words again, too.
#[test]
fn words_on_a_turned_page() {
    let agenda = agenda_in("agenda-words");
    let table: String = (0..60)
        .map(|job| format!("* * * * * job {job}\n"))
        .collect();
    let text = agenda_of(
        &agenda,
        &["--page", "-", "2026-11-14", "2026-11-14"],
        table.as_bytes(),
    );
    let pages = pages(&text, "-", "2026-11-14 to 2026-11-14, UTC");
    assert_eq!(pages.len(), 2);
    assert!(pages[0].starts_with("Often\n\nevery minute, 1440 times:\n    job 0\n"));
    assert!(
        pages[1].starts_with("every minute, 1440 times:\n    job 55\n"),
        "{}",
        pages[1]
    );
}

/// Behind a date and a clock a command has 31 columns, and 29 where it goes on: one of 61 words needs more than a page.
#[test]
fn a_command_of_more_than_a_page() {
    let agenda = agenda_in("agenda-torn");
    let words = vec!["fifteen-letters"; 61].join(" ");
    let table = format!("CRON_TZ=+12:45\n@yearly {words}\n@yearly a\n");
    let arguments = ["--local", "-", "2026-11-14", "2026-11-14"];
    let whole = agenda_of(&agenda, &arguments, table.as_bytes());
    let arguments = [&["--page"], &arguments[..]].concat();
    let text = agenda_of(&agenda, &arguments, table.as_bytes());
    let pages = pages(&text, "-", "2026-11-14 to 2026-11-14, UTC");
    assert_eq!(pages.len(), 2);
    assert_eq!(parsed(&pages.concat()), parsed(&whole));
    assert!(pages[1].ends_with("\n2026-12-31 Thu 11:15  [Fri 00:00 +12:45] a\n"));
}

/// The end of a long name stands at the top; a title has all of it. What can't be shown is a question mark.
#[test]
fn names() {
    let agenda = agenda_in("agenda-names");
    let long = "n".repeat(250) + ".tab";
    let span = "2026-11-14 to 2026-11-14, UTC";
    let date = "2026-11-14";
    for (name, title, top) in [
        ("l\nine\x07\x0c", "Agenda of l?ine??\n", "l?ine??"),
        ("c1\u{9b}1m", "Agenda of c1?1m\n", "c1?1m"),
        ("%s %n", "Agenda of %s %n\n", "%s %n"),
        (
            "caf\u{e9} \u{1f319}",
            "Agenda of caf\u{e9} \u{1f319}\n",
            "caf\u{e9} \u{1f319}",
        ),
        (
            &long,
            "Agenda of\n  nnnn",
            "...nnnnnnnnnnnnnnnnnnnnnnnnnn.tab",
        ),
    ] {
        agenda.write(name, "@daily a\n");
        let text = agenda_of(&agenda, &["--", name, date, date], b"");
        assert!(is_narrow(&text));
        assert!(text.starts_with(title), "{text}");
        let (title, _) = text.split_once(span).expect("a span");
        assert_eq!(
            squeezed(&title.replace('\n', "")).chars().count(),
            8 + squeezed(name).chars().count()
        );
        let (text, _, _) = all(&agenda.run(&["--page", "--", name, date, date]));
        let pages = pages(&text, top, span);
        assert_eq!(pages, ["November 2026\n\n14 Sat  00:00  a\n"]);
    }
    let path = root().join("examples/observatory.crontab").canonicalize();
    let path = path.expect("the example");
    let (text, _, _) = all(&agenda.run(&["--page", word(&path), "2026-11-01", "2026-12-31"]));
    assert!(
        text.lines().all(|line| line.chars().count() <= COLUMNS),
        "{text}"
    );
}
