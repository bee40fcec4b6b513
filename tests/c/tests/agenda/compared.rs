//! Agendas against the reference program: every firing, every count, and who doesn't fire.

use crate::parsed::{parsed, Agenda};
use crate::wanted::wanted;
use crate::{agenda_in, agenda_of};
use c::shown::{job, reading, typed, Span};
use c::Subcommand;
use reference::calendar::LAST_MINUTE;
use reference::random::Random;
use reference::schedule::samples::start;
use reference::table::{read, samples, Rules, Table};

/// The agenda of a table, held to the reference program's. Answers it, with the words that it has.
fn held(
    agenda: &Subcommand,
    bytes: &[u8],
    rules: Rules,
    [from, to]: Span,
    more: &[&str],
) -> Agenda {
    let table = read(bytes, rules).expect("a good table");
    let (first, last) = (typed(from), typed(to));
    let arguments = [&reading(rules)[..], more, &["-", &first, &last]].concat();
    let text = agenda_of(agenda, &arguments, bytes);
    for line in text.lines() {
        assert_eq!(line.trim_end_matches(' '), line, "{text}");
    }
    assert!(unbroken(&table, &text), "{text}");
    let mut found = parsed(&text);
    let words: Vec<String> = (found.often.iter_mut())
        .map(|row| std::mem::take(&mut row.0))
        .collect();
    let expected = wanted(&table, [from, to], more.contains(&"--local"));
    assert_eq!(
        found,
        expected,
        "{arguments:?}\n{}\n{text}",
        bytes.escape_ascii()
    );
    for (row, words) in found.often.iter_mut().zip(words) {
        row.0 = words;
    }
    found
}

/// Whether the jobs of a table that need no second line stand there with all their blanks, if they stand there at all.
fn unbroken(table: &Table, text: &str) -> bool {
    let jobs = table.entries.iter().map(|entry| job(table, entry));
    jobs.filter(|job| job.chars().count() <= 31)
        .all(|job| text.contains(job.trim_end()))
}

/// A span that starts and ends somewhere: of minutes, hours or some days.
fn span(random: &mut Random) -> Span {
    let from = start(random).min(LAST_MINUTE);
    let most = random.pick(&[1, 100, 3_000, 3_000, 20_000, 90_000]);
    [from, LAST_MINUTE.min(from + random.below(most))]
}

#[test]
fn random_tables_of_both_kinds_and_dialects() {
    let agenda = agenda_in("agenda-random");
    let mut random = Random::seeded();
    let (mut often, mut firings, mut boot, mut others) = (0, 0, 0, 0);
    for rules in Rules::ALL.repeat(150) {
        let lines = random.below(9);
        let table = samples::table(&mut random, rules, lines);
        let span = span(&mut random);
        let more: &[&str] = random.pick(&[&[], &["--local"]]);
        let found = held(&agenda, &table, rules, span, more);
        often += found.often.len();
        firings += found.firings.len();
        boot += found.boot.len();
        others += found.others.len();
    }
    let seen = [often, firings, boot, others];
    assert!(seen.iter().all(|&count| count > 10), "{seen:?}");
}

/// Each hour of a day as an end, by clocks that are ahead and behind: days are the entry's own.
#[test]
fn counts_at_ragged_ends() {
    let agenda = agenda_in("agenda-ragged");
    let rules = Rules::ALL[0];
    let mut random = Random::seeded();
    for zone in ["+00:00", "+14:00", "-12:00", "+05:30", "-03:30", "+00:01"] {
        let table = format!(
            "CRON_TZ={zone}\n*/7 3-20 * * * a\n10 * 1,15 * 1 b\n0 */3 */2 * 1-5 c\n59 0-23 31 12 * d\n30 1-5 * * * e\n"
        );
        for _ in 0..12 {
            let from = 29_905_920 + random.below(20_000);
            for length in [0, 59, 600, 1_439, 1_440, 1_441, 2_880, 10_000, 50_000] {
                let to = from + length;
                let found = held(&agenda, table.as_bytes(), rules, [from, to], &[]);
                let words = format!(", by the clock {zone}");
                assert!(
                    found.often.iter().all(|row| row.0.ends_with(&words)),
                    "{found:?}"
                );
            }
        }
    }
}

/// From the first minute and up to the last, where a clock may show a minute off the calendar.
#[test]
fn the_ends_of_the_calendar() {
    let agenda = agenda_in("agenda-ends");
    for zone in ["+00:00", "+14:00", "-12:00", "+12:45"] {
        let table = format!(
            "0 0 1 1 * a\n59 23 31 12 * b\n* * * * * c\n@reboot d\nCRON_TZ={zone}\n0 0 1 1 * a\n59 23 31 12 * b\n* * * * * c\n"
        );
        for length in [0, 1, 719, 720, 721, 839, 840, 841, 1_439, 1_440, 4_000] {
            for more in [&[][..], &["--local"]] {
                for span in [
                    [0, length],
                    [LAST_MINUTE - length, LAST_MINUTE],
                    [1, 1 + length],
                ] {
                    let _ = held(&agenda, table.as_bytes(), Rules::ALL[0], span, more);
                }
            }
        }
    }
}

/// Long spans: a count over cycles of 400 years, and what a year before them and behind them has.
#[test]
fn long_spans() {
    let agenda = agenda_in("agenda-long");
    let table =
        b"0 */4 29 2 * a\nCRON_TZ=+09:30\n7 0-23/4 13 * 5 b\n0 12 29 2 1 c\n0 */4 29 2 */7 d\n";
    for span in [
        [0, LAST_MINUTE],
        [1, LAST_MINUTE - 1],
        [29_905_921, 29_905_921 + 146_097 * 1_440],
        [29_905_920 - 570, 29_905_920 - 570 + 146_097 * 1_440 - 1],
        [
            29_905_920 - 570,
            29_905_920 - 570 + 2 * 146_097 * 1_440 + 1_440,
        ],
    ] {
        let found = held(&agenda, table, Rules::ALL[0], span, &["--local"]);
        assert_eq!(found.often.len(), 3);
    }
}

/// Every batch of what the library lists ends within some minute, and every minute is whole.
#[test]
fn many_entries_at_once() {
    let agenda = agenda_in("agenda-many");
    for entries in [1, 3, 511, 512] {
        let table: String = (0..entries)
            .map(|entry| format!("0 0,6,12,18 * * * job {entry}\n"))
            .collect();
        let found = held(
            &agenda,
            table.as_bytes(),
            Rules::ALL[0],
            [29_905_920, 29_905_920 + 14_400],
            &[],
        );
        assert_eq!(found.firings.len(), 41 * entries);
    }
}
