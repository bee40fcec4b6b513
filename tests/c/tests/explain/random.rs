//! Random entries: their words, read back, mean what the reference program reads.

use super::reader::{read as read_words, sunday_first, Meaning};
use super::words;
use c::shown::{reading, times};
use c::Subcommand;
use reference::random::Random;
use reference::schedule::Schedule;
use reference::table::{read, samples, Kind, Rules, When};
use std::collections::HashMap;

/// What the words should mean.
fn meant(schedule: &Schedule) -> Meaning {
    let ([minutes, hours, days, months, weekdays], either) = times(schedule);
    Meaning {
        minutes,
        hours,
        days,
        months,
        weekdays,
        either,
    }
}

fn compare(
    explain: &Subcommand,
    options: &[&str],
    table: &[u8],
    rules: Rules,
    seen: &mut HashMap<Meaning, String>,
) {
    let read = read(table, rules).expect("a good table");
    let found = words(explain, options, table);
    assert_eq!(found.len(), read.entries.len());
    for (entry, words) in read.entries.iter().zip(found) {
        let When::Times(schedule) = entry.when else {
            assert_eq!(words, "at boot");
            continue;
        };
        let meaning = meant(&schedule);
        assert_eq!(sunday_first(read_words(&words)), meaning, "{words}");
        let before = seen.entry(meaning).or_insert_with(|| words.clone());
        assert_eq!(*before, words, "two spellings of one entry");
    }
}

#[test]
fn words_mean_what_the_second_program_reads() {
    let explain = Subcommand::new("explain", "explain-random");
    let mut random = Random::seeded();
    let mut seen = HashMap::new();
    for rules in Rules::ALL {
        let options = reading(rules);
        for _ in 0..40 {
            let table = samples::table(&mut random, rules, 300);
            compare(&explain, &options, &table, rules, &mut seen);
        }
    }
    assert!(seen.len() > 3000, "{}", seen.len());
}

/// Fields in which most of the words' forms come up, in every combination of days, weekdays and stars.
#[test]
fn every_form_of_words_means_what_it_says() {
    let explain = Subcommand::new("explain", "explain-forms");
    let fields: [&[&str]; 5] = [
        &["*", "0", "*/5", "3-59/5", "1,2,3,7", "*/7", "0-59"],
        &["*", "0", "*/2", "1-23/2", "8-17", "0,6,12", "22,23"],
        &["*", "1-31", "1", "*/2", "2-31/2", "1-7", "1,2,31"],
        &["*", "2", "nov,dec", "mar-may"],
        &["*", "0-6", "7", "*/2", "1-5", "sat,sun", "fri-sun"],
    ];
    let mut seen = HashMap::new();
    let mut table = String::new();
    let mut lines = 0;
    let every = fields.iter().map(|forms| forms.len()).product::<usize>();
    for number in 0..every {
        let mut left = number;
        for forms in fields {
            table += &format!("{} ", forms[left % forms.len()]);
            left /= forms.len();
        }
        table += "x\n";
        lines += 1;
        if lines == 512 || number + 1 == every {
            compare(
                &explain,
                &[],
                table.as_bytes(),
                Rules::from(Kind::User),
                &mut seen,
            );
            table.clear();
            lines = 0;
        }
    }
}
