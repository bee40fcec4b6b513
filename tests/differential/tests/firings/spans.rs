//! Spans at both ends of the calendar, with clocks that leave it there.

use crate::in_both_kinds;
use differential::spans::ends;
use reference::table::offset::samples::OFFSETS;
use reference::table::offset::text;

#[test]
fn every_span_about_the_ends_under_every_clock() {
    for offset in OFFSETS {
        let value = text(offset);
        let table = format!(
            "* * * * * ~a\nCRON_TZ={value}\n* * * * * ~b\n0 0 * * * ~c\n59 23 31 12 * ~d\n@reboot ~e\n"
        );
        in_both_kinds(&table, |table| {
            for span in ends() {
                for entry in 0..5 {
                    let _ = table.firings(entry, span, 5);
                }
                let _ = table.firings(1, span, 2_000);
                let _ = table.merged_firings(span, [9, 8]);
                let _ = table.merged_firings(span, [30, 40]);
            }
        });
    }
}

/// Every span of some minutes: a is out, b is in.
#[test]
fn every_small_span() {
    in_both_kinds("*/3 * * * * ~a\n1-59/4 * * * * ~b\n", |table| {
        for a in 0..70 {
            for b in 0..70 {
                table.firings_into_all(0, [a, b]);
                table.merged_firings_into_all([a, b]);
            }
        }
    });
}

/// The whole calendar, of entries that seldom fire.
#[test]
fn the_whole_calendar() {
    let table = "0 0 29 2 */7 ~a\n0 12 29 2 * ~b\nCRON_TZ=-09:30\n0 0 1 1 0 ~c\n0 0 31 2,4 * ~d\n";
    in_both_kinds(table, |table| {
        let whole = [0, reference::calendar::LAST_MINUTE];
        for entry in 0..4 {
            let needed = table.list(entry, whole, 20_000).len();
            for length in [needed, needed + 1, needed.saturating_sub(1)] {
                let _ = table.firings(entry, whole, length);
            }
        }
        let needed = table.merged_list(whole, 20_000).len();
        assert!(needed > 3_000, "{needed} firings");
        for length in [needed, needed + 1, needed - 1] {
            let _ = table.merged_firings(whole, [length, length]);
        }
    });
}
