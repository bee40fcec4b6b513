//! The line below a diagnostic: each character has one column, the caret is under the right one, and no byte can do harm.

use super::{check_in, says};
use c::Subcommand;

/// The two lines below the first diagnostic, without their four blanks.
fn shown(check: &Subcommand, table: impl AsRef<[u8]>) -> [String; 2] {
    let (text, _) = says(check, &[], table);
    let lines: Vec<&str> = text
        .lines()
        .filter_map(|line| line.strip_prefix("    "))
        .collect();
    [lines[0].to_string(), lines[1].to_string()]
}

fn is(line: &str, caret: &str) -> [String; 2] {
    [line.to_string(), caret.to_string()]
}

#[test]
fn the_caret_is_under_the_place() {
    let check = check_in("check-caret-place");
    let shown = |table: &[u8]| shown(&check, table);
    // An element, up to its comma; a field; a word; one byte; behind the line.
    assert_eq!(
        shown("1,60-70,2 * * * * x\n".as_bytes()),
        is("1,60-70,2 * * * * x", "  ^~~~~")
    );
    assert_eq!(
        shown("0 1,2x,3 * * * x\n".as_bytes()),
        is("0 1,2x,3 * * * x", "  ^~~~~~")
    );
    assert_eq!(shown("  @noon x\n".as_bytes()), is("  @noon x", "  ^~~~~"));
    assert_eq!(shown("* 24\n".as_bytes()), is("* 24", "  ^~"));
    assert_eq!(shown("* 2\n".as_bytes()), is("* 2", "   ^"));
    assert_eq!(
        shown("* * * * * x".as_bytes()),
        is("* * * * * x", "           ^")
    );
    assert_eq!(
        shown("CRON_TZ = utc z\n".as_bytes()),
        is("CRON_TZ = utc z", "          ^~~~~")
    );
}

/// A tab has one column.
#[test]
fn tabs_are_blanks() {
    let check = check_in("check-tabs");
    let shown = |table: &[u8]| shown(&check, table);
    assert_eq!(
        shown("\t0\t\t24 * * *\tx\n".as_bytes()),
        is(" 0  24 * * * x", "    ^~")
    );
}

/// No control byte is printed, whether the line is refused for it or not.
#[test]
fn control_bytes_are_marks() {
    let check = check_in("check-control");
    let shown = |table: &[u8]| shown(&check, table);
    assert_eq!(
        shown("# a\x1b[31m\x07\n".as_bytes()),
        is("# a?[31m?", "   ^")
    );
    assert_eq!(shown("A=b\r\n".as_bytes()), is("A=b?", "   ^"));
    assert_eq!(shown("A\0b\x7f\n".as_bytes()), is("A?b?", " ^"));
}

/// A character of several bytes has one column; bytes that are none have one each, and so have C1's control characters.
#[test]
fn bytes_above_127() {
    let check = check_in("check-bytes");
    let shown = |table: &[u8]| shown(&check, table);
    assert_eq!(
        shown("\u{e9}\u{1f319}=b\r\n".as_bytes()),
        is("\u{e9}\u{1f319}=b?", "    ^")
    );
    assert_eq!(
        shown("caf\u{e9} \u{4e2d}\u{6587} = 'x\n".as_bytes()),
        is("caf\u{e9} \u{4e2d}\u{6587} = 'x", "^~~~")
    );
    assert_eq!(
        shown("0 0 * * \u{e9}\u{e9} x\n".as_bytes()),
        is("0 0 * * \u{e9}\u{e9} x", "        ^~")
    );
    assert_eq!(shown(b"\xe9\x80=\xff\xc3\r\n"), is("??=???", "     ^"));
    assert_eq!(
        shown("\u{9b}31m\u{feff}=b\r\n".as_bytes()),
        is("?31m?=b?", "       ^")
    );
    assert_eq!(shown(b"\xc2"), is("?", "^"));
}

/// Of a long line 76 columns are shown, with dots where it is cut.
#[test]
fn a_long_line_is_a_window() {
    let check = check_in("check-window");
    let shown = |table: &[u8]| shown(&check, table);
    let x = |count| "x".repeat(count);
    // 76 columns are whole, 77 aren't.
    let fields = "0 24 * * * ";
    assert_eq!(
        shown(format!("{fields}{}\n", x(65)).as_bytes()),
        is(&format!("{fields}{}", x(65)), "  ^~")
    );
    assert_eq!(
        shown(format!("{fields}{}\n", x(66)).as_bytes()),
        is(&format!("{fields}{}...", x(62)), "  ^~")
    );
    // The place is at the end, and before the end.
    let cut = shown(format!("0 0 * * * {}", x(200)).as_bytes());
    assert_eq!(
        cut,
        is(&format!("...{}", x(72)), &format!("{}^", " ".repeat(75)))
    );
    let far = shown(format!("#{}\x01{}\n", x(300), x(300)).as_bytes());
    assert_eq!(
        far,
        is(
            &format!("...{}?{}...", x(27), x(42)),
            &format!("{}^", " ".repeat(30))
        )
    );
    let long = shown(format!("#{}\n", x(40_000)).as_bytes());
    assert_eq!(
        long,
        is(&format!("...{}...", x(70)), &format!("{}^", " ".repeat(30)))
    );
}

/// What is pointed at ends where the window does, and characters aren't cut.
#[test]
fn a_window_holds_what_is_pointed_at() {
    let check = check_in("check-window-width");
    let shown = |table: &[u8]| shown(&check, table);
    let long = shown(format!("0 {} * * * x\n", "9".repeat(200)).as_bytes());
    let line = format!("0 {}...", "9".repeat(71));
    assert_eq!(long, is(&line, &format!("  ^{}", "~".repeat(73))));
    let wide = "\u{e9}".repeat(100);
    let [line, caret] = shown(format!("{wide}=b\r\n").as_bytes());
    assert_eq!(line, format!("...{}=b?", "\u{e9}".repeat(70)));
    assert_eq!(caret, format!("{}^", " ".repeat(75)));
}
