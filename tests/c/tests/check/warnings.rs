//! Warnings: what a good table may not be meant to have. They don't refuse it, unless `--strict` lets them count.

use super::{check_in, says, short};

const NEVER: &str = "the entry never fires: there is no such date [never]";
const USER: &str = "the command is 'root': is this a system table? (--system) [user]";
const PERCENT: &str =
    "the command ends before this %: what follows is its standard input [percent]";
const BOM: &str = "a byte order mark is part of the first setting's name [bom]";

fn same(line: u64) -> String {
    format!("the same entry as on line {line}: its job runs more than once [same]")
}

fn six(word: &str) -> String {
    format!("'{word}' looks like a sixth time field: there are five [six-fields]")
}

fn step(field: &str, values: u64) -> String {
    format!("{field}: a step of more than {values} leaves one value [step]")
}

const BACKSLASH: &str =
    "the command ends in \\, which doesn't join it with the next line [backslash]";
const COMMENT: &str = "the # and what follows are part of the value [comment]";

/// Tables, the places of their warnings and their words.
#[test]
fn known_warnings() {
    let check = check_in("check-warnings");
    let rows: [(&str, &[(&str, String)]); 52] = [
        ("0 0 30 2 * x\n", &[("1:5", NEVER.into())]),
        (
            "A=b\n\n 0 0  31  4,6,9-11/2 * x\n",
            &[("3:7", NEVER.into())],
        ),
        ("0 0 30-31 feb */2 x\n", &[("1:5", NEVER.into())]),
        ("CRON_TZ=-12:00\n* * 31 2 * x\n", &[("2:5", NEVER.into())]),
        // A day that comes: in leap years, in another month, or by its weekday.
        ("0 0 29 2 * x\n", &[]),
        ("0 0 31 2,3 * x\n", &[]),
        ("0 0 30 2 1 x\n", &[]),
        ("@reboot x\n", &[]),
        ("* * * * * x\n* * * * * x\n", &[("2:1", same(1))]),
        (
            "* * * * * x\n#\n\t*/1 * * *  *  x\n* * * * * x\n",
            &[("3:2", same(1)), ("4:1", same(1))],
        ),
        (
            "@daily x\n0 0 * * * x\n00 0 * * * x y\n",
            &[("2:1", same(1))],
        ),
        ("@reboot x\n@reboot x\n", &[("2:1", same(1))]),
        ("0 0 * * sun x\n0 0 * * 7 x\n", &[("2:1", same(1))]),
        // However it is written, and whichever day field has every day.
        ("0 * * * * x\n0 0-23 * * * x\n", &[("2:1", same(1))]),
        ("0 0 * * * x\n0 0 1 * 0-6 x\n", &[("2:1", same(1))]),
        (
            "@reboot x\nCRON_TZ=+01:00\n@reboot x\n",
            &[("3:1", same(1))],
        ),
        // Another command, another time, another clock, another rule for the days.
        ("* * * * * x\n* * * * * x \n", &[]),
        ("0 0 */2 * 1 x\n0 0 1-31/2 * 1 x\n", &[]),
        ("0 0 1 1 * x\n0 0 1 2 * x\n", &[]),
        ("0 0 * * * x\n0 1 * * * x\n", &[]),
        ("@reboot x\n@daily x\n", &[]),
        ("1 * * * * x\n2 * * * * x\n", &[]),
        ("0 0 * * * x\nCRON_TZ=+01:00\n0 0 * * * x\n", &[]),
        ("A=b\nA=b\n", &[]),
        ("0 0 * * * root x\n", &[("1:11", USER.into())]),
        ("@daily  root  x\n", &[("1:9", USER.into())]),
        (
            "0 0 * * * root\n0 0 * * * roots x\n0 0 * * * x root y\n",
            &[],
        ),
        ("0 0 * * * * x\n", &[("1:11", six("*"))]),
        (
            "0 0 12 * * ? x\n0 */5 * * * */2 x\n0 0 * * * *\n",
            &[("1:12", six("?")), ("2:13", six("*/2")), ("3:11", six("*"))],
        ),
        (
            "0 0 4 * * MON-FRI x\n0 0 4 * * mon,2 x\n0 0 4 * * 1-5/2 x\n0 0 4 * * SUN x\n0 0 4 * * 2026 x\n",
            &[
                ("1:11", six("MON-FRI")),
                ("2:11", six("mon,2")),
                ("3:11", six("1-5/2")),
                ("4:11", six("SUN")),
                ("5:11", six("2026")),
            ],
        ),
        // What may be a command's name.
        (
            "0 0 * * * *.sh x\n0 0 * * * ?x\n0 0 * * * 7z x\n0 0 * * * mon x\n0 0 * * * sunday x\n0 0 * * * - x\n0 0 * * * 42\n",
            &[],
        ),
        ("*/90 * * * * x\n", &[("1:1", step("minute", 60))]),
        (
            "0 1,0-23/25 */32 1-12/13 */9 x\n",
            &[("1:5", step("hour", 24))],
        ),
        ("0 0 */32 * * x\n", &[("1:5", step("day", 31))]),
        ("*/60 */24 */31 */12 */8 x\n@hourly x/99\n", &[]),
        ("0 0 * * * x \\\nA=b\n", &[("1:13", BACKSLASH.into())]),
        ("0 0 * * * x \\ \n0 0 * * * y \\%\n", &[]),
        ("A=b # c\n", &[("1:5", COMMENT.into())]),
        (
            "A= # c\nB = b\t#\n",
            &[("1:4", COMMENT.into()), ("2:7", COMMENT.into())],
        ),
        ("A=\"b # c\"\nB='# c'\nC=#c\nD=b#c\nE=\n", &[]),
        // As date writes a time, in quotes or not; what is escaped or comes later isn't the end.
        ("@daily date +%F\n", &[("1:14", PERCENT.into())]),
        ("@daily date '+%F'\n", &[("1:15", PERCENT.into())]),
        ("@daily printf \"%s\" a\n", &[("1:16", PERCENT.into())]),
        ("@daily date +\\%Y-%m\n", &[("1:18", PERCENT.into())]),
        (
            "@daily mail -s \"It's 10pm\" joe%Joe,%%Where are your kids?%\n",
            &[],
        ),
        ("@daily a\\%b c%d\n@daily a 'b' \"c\" %d\n", &[]),
        ("@daily date +\"%F %T\"\n", &[("1:15", PERCENT.into())]),
        ("@daily echo 5\\% +%s\n", &[("1:18", PERCENT.into())]),
        (
            "@daily date +\\%F\n@daily x%+%F\n@daily %\n",
            &[],
        ),
        (
            "0 12 14 2 * mailx john%Happy Birthday!%Time for lunch.\n",
            &[],
        ),
        ("\u{feff}A=b\n", &[("1:1", BOM.into())]),
        // One line may have several, by their columns.
        (
            "0 0 31 2 * root x\n0 0 31 2 * root x\n",
            &[
                ("1:5", NEVER.into()),
                ("1:12", USER.into()),
                ("2:1", same(1)),
                ("2:5", NEVER.into()),
                ("2:12", USER.into()),
            ],
        ),
    ];
    for (table, warnings) in rows {
        let told: Vec<String> = warnings
            .iter()
            .map(|(place, words)| format!("t:{place}: warning: {words}"))
            .collect();
        assert_eq!(short(&check, &[], table), told, "{table}");
        assert_eq!(says(&check, &[], table).1, Some(0), "{table}");
        let strict = says(&check, &["--strict"], table).1;
        assert_eq!(strict, Some(i32::from(!told.is_empty())), "{table}");
    }
}

/// In a system table the user isn't the command's, and is part of what the entry is.
#[test]
fn warnings_of_system_tables() {
    let check = check_in("check-warnings-system");
    let rows: [(&str, Vec<String>); 5] = [
        ("0 0 * * * root x\n", vec![]),
        (
            "0 0 4 * * 1-5 root x\n",
            vec![format!("t:1:11: warning: {}", six("1-5"))],
        ),
        (
            "0 0 * * * u x\n0 0 * * * v x\n0 0 * * *\tu\tx\n",
            vec![format!("t:3:1: warning: {}", same(1))],
        ),
        (
            "0 0 31 6 * root * x\n",
            vec![
                format!("t:1:5: warning: {NEVER}"),
                format!("t:1:17: warning: {}", six("*")),
            ],
        ),
        ("0 0 * * * root root x\n", vec![]),
    ];
    for (table, told) in rows {
        assert_eq!(short(&check, &["-s"], table), told, "{table}");
    }
}

/// A table that is refused has errors alone.
#[test]
fn a_refused_table_has_no_warnings() {
    let check = check_in("check-warnings-refused");
    let table = "0 0 30 2 * x\n0 0 30 2 * x\n60 0 * * * x\n";
    assert_eq!(
        short(&check, &["--strict"], table),
        ["t:3:1: error: minute: 60 is outside 0-59 [6]"]
    );
}

/// The whole of it: the line, what it is about, and how many there are.
#[test]
fn warnings_are_shown_as_errors_are() {
    let check = check_in("check-warnings-shown");
    let table =
        "\u{feff}A=b\n0 0 30 2 * x\n0 0 12 * * ? x\n0 0 30 2 *  x\n@daily root x\n* * * * * * y\n@hourly date +%s\n*/90 * * * * z \\\nMAILTO=me # on duty\n";
    let text = "\
t:1:1: warning: a byte order mark is part of the first setting's name [bom]
    ?A=b
    ^
t:2:5: warning: the entry never fires: there is no such date [never]
    0 0 30 2 * x
        ^~~~
t:3:12: warning: '?' looks like a sixth time field: there are five [six-fields]
    0 0 12 * * ? x
               ^
    hint: seconds and years aren't here: minute, hour, day, month, weekday
t:4:1: warning: the same entry as on line 2: its job runs more than once [same]
    0 0 30 2 *  x
    ^~~~~~~~~~~~~
t:4:5: warning: the entry never fires: there is no such date [never]
    0 0 30 2 *  x
        ^~~~
t:5:8: warning: the command is 'root': is this a system table? (--system) [user]
    @daily root x
           ^~~~
t:6:11: warning: '*' looks like a sixth time field: there are five [six-fields]
    * * * * * * y
              ^
t:7:15: warning: the command ends before this %: what follows is its standard input [percent]
    @hourly date +%s
                  ^
    hint: \\% is a percent sign, as in date +\\%F
t:8:1: warning: minute: a step of more than 60 leaves one value [step]
    */90 * * * * z \\
    ^~~~
t:8:16: warning: the command ends in \\, which doesn't join it with the next line [backslash]
    */90 * * * * z \\
                   ^
t:9:11: warning: the # and what follows are part of the value [comment]
    MAILTO=me # on duty
              ^~~~~~~~~
    hint: a comment stands on a line of its own
t: 7 entries, 11 warnings
";
    assert_eq!(says(&check, &[], table), (text.to_string(), Some(0)));
    let one = says(&check, &["--short"], "0 0 30 2 * x\n").0;
    assert_eq!(
        one,
        format!("t:1:5: warning: {NEVER}\nt: 1 entry, 1 warning\n")
    );
}

/// As many as there can be.
#[test]
fn full_tables_have_all_their_warnings() {
    let check = check_in("check-warnings-full");
    let table = "0 0 30 2 * root x\n".repeat(512);
    let told = short(&check, &[], &table);
    assert_eq!(told.len(), 512 + 511 + 512);
    assert_eq!(told[1533], format!("t:512:5: warning: {NEVER}"));
    let (text, status) = says(&check, &["--strict"], &table);
    assert!(text.ends_with("\nt: 512 entries, 1535 warnings\n"));
    assert_eq!(status, Some(1));
}
