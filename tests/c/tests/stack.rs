//! The stack that a call takes, measured by `programs/stack.c`.

use c::{build, run, scratch, told};

/// What the header says: some 12 KB, and 84 for the merged list, which keeps a table's entries while it goes from firing to firing.
const MOST: usize = 12_800;
const MOST_MERGED: usize = 84 << 10;

#[test]
fn no_call_takes_more_stack_than_may_be() {
    let program = build(&["tests/c/programs/stack.c"], &scratch("stack"));
    let (text, status) = told(&run(program, &[""; 0]));
    assert_eq!(status, Some(0));
    assert_eq!(text.lines().count(), 26);
    for line in text.lines() {
        let (call, bytes) = line.split_once(' ').expect("a name and a number");
        let bytes: usize = bytes.parse().expect("a number");
        println!("{call}: {bytes} bytes");
        let most = if call == "merged_firings" {
            MOST_MERGED
        } else {
            MOST
        };
        assert!(bytes <= most, "{call} takes {bytes} bytes");
        // A full table's reader keeps something there: nothing was measured where it is less.
        let reads_a_table = !["minute_of_date", "year", "date", "record_fault"].contains(&call);
        assert!(
            bytes > if reads_a_table { 200 } else { 7 },
            "{call}: {bytes}"
        );
    }
}
