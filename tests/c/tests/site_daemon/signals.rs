//! A clock by a pipe, and signals while the daemon sleeps: reloads with jobs that wait, a bad table, a clean end.

use crate::log::{date, Daemon, Shown};
use crate::Site;
use c::{root, run, word};
use reference::calendar::minute_of;
use reference::table::{read, Kind};
use std::fs::{self, File};
use std::io::{BufRead, BufReader, Write};
use std::process::{Child, Command, Stdio};
use std::sync::mpsc::{channel, Receiver};
use std::thread;
use std::time::Duration;

/// A daemon that runs, its clock, and the lines of its log.
struct Running {
    child: Child,
    clock: Option<File>,
    log: Receiver<String>,
}

impl Running {
    /// With a clock that is handed in, by a pipe.
    fn start(site: &Site, options: &[&str], table: &str) -> Running {
        let pipe = site.path("clock");
        let made = run("mkfifo", &[word(&pipe)]);
        assert!(made.status.success(), "{made:?}");
        let clock = ["-c", word(&pipe)];
        let mut running = Running::by_the_clock(site, &[&clock, options].concat(), table);
        running.clock = Some(File::options().write(true).open(&pipe).expect("the clock"));
        running
    }

    /// With the real clock.
    fn by_the_clock(site: &Site, options: &[&str], table: &str) -> Running {
        let mut child = Command::new(&site.program)
            .current_dir(root())
            .args(options)
            .arg(table)
            .stdout(Stdio::piped())
            .spawn()
            .expect("the daemon runs");
        let output = child.stdout.take().expect("the log");
        let (send, log) = channel();
        thread::spawn(move || {
            let lines = BufReader::new(output).lines();
            let mut lines = lines.map_while(Result::ok);
            lines.all(|line| send.send(line).is_ok())
        });
        Running {
            child,
            clock: None,
            log,
        }
    }

    /// The clock shows a minute, and the log says so much.
    fn minute(&mut self, minute: u64, lines: &[&str]) {
        self.clock(Shown::Minute(minute));
        self.says(minute, lines);
    }

    fn clock(&mut self, shown: Shown) {
        let clock = self.clock.as_mut().expect("a clock");
        clock
            .write_all(shown.line().as_bytes())
            .expect("the clock is read");
    }

    /// The next lines of the log. All but those that begin with a blank have the minute's date in front.
    fn says(&self, minute: u64, lines: &[&str]) {
        for line in lines {
            let expected = match line.starts_with(' ') {
                true => line.to_string(),
                false => format!("{}  {line}", date(minute)),
            };
            let found = self.log.recv_timeout(Duration::from_secs(20));
            assert_eq!(found, Ok(expected));
        }
    }

    /// The next lines of the log, whole.
    fn shows(&self, lines: &[String]) {
        for line in lines {
            let found = self.log.recv_timeout(Duration::from_secs(20));
            assert_eq!(found.as_ref(), Ok(line));
        }
    }

    fn signal(&self, name: &str) {
        let sent = run("kill", &[name, &self.child.id().to_string()]);
        assert!(sent.status.success(), "{sent:?}");
    }

    /// It has ended, by itself and with nothing more to say.
    fn ended(mut self) {
        assert_eq!(self.child.wait().expect("it ends").code(), Some(0));
        assert_eq!(self.log.iter().next(), None);
    }
}

fn evening() -> u64 {
    minute_of(2026, 11, 15, 21, 0).expect("a date")
}

const TABLE: &str = "A=b\n* * * * * backup\n* * * * * wipe\n@reboot boot\n";

#[test]
fn a_reload_while_jobs_wait() {
    let site = Site::new("site-reload");
    let mut daemon = Running::start(&site, &[], &site.table(TABLE));
    let now = evening();
    let boot = [
        "start: 1 wait",
        "line 4 after 0 min: |boot|",
        "                      with |A| = |b|",
    ];
    daemon.minute(now, &boot);
    // The two are exchanged while both wait, the second since the minute of the first.
    site.table("* * * * * wipe\n* * * * * backup\n@reboot boot\n");
    daemon.signal("-HUP");
    daemon.says(now, &["reload: 2 of 2 wait on"]);
    daemon.minute(now + 1, &["line 2 after 1 min: |backup|"]);
    daemon.minute(now + 2, &["line 1 after 2 min: |wipe|"]);
    // One is gone, another is new, and a boot job isn't run again.
    site.table("@reboot boot\n0 0 * * * new\n* * * * * wipe\n");
    daemon.signal("-HUP");
    daemon.says(now + 2, &["reload: 0 of 1 wait on"]);
    daemon.minute(now + 3, &["line 3 after 0 min: |wipe|"]);
    daemon.signal("-TERM");
    daemon.says(now + 3, &["end: 0 wait"]);
    daemon.ended();
}

/// Who leaves takes its own time along, and nobody else's.
#[test]
fn times_of_those_who_stay() {
    let site = Site::new("site-times");
    let mut daemon = Running::start(
        &site,
        &[],
        &site.table("0 * * * * a\n1 * * * * b\n2 * * * * c\n3 * * * * d\n* 21 * * * e\n"),
    );
    let now = evening();
    daemon.minute(now, &["start: 0 wait", "line 1 after 0 min: |a|"]);
    daemon.minute(now + 1, &["line 5 after 1 min: |e|"]);
    daemon.minute(now + 2, &["line 2 after 1 min: |b|"]);
    daemon.minute(now + 3, &["line 3 after 1 min: |c|"]);
    // e waits since 2, and d since 3. e leaves.
    site.table("3 * * * * d\n");
    daemon.signal("-HUP");
    daemon.says(now + 3, &["reload: 1 of 2 wait on"]);
    daemon.minute(now + 4, &["line 1 after 1 min: |d|"]);
    daemon.signal("-INT");
    daemon.says(now + 4, &["end: 0 wait"]);
    daemon.ended();
}

/// Two jobs that become one entry: the one that is nearer to the front stays, with its own time.
#[test]
fn two_jobs_that_become_one() {
    let site = Site::new("site-merged");
    let old = site.table("* * * * * x\n* * * * * a\n* * * * * b\n* * * * * a\n");
    let mut daemon = Running::start(&site, &[], &old);
    let now = evening();
    daemon.minute(now, &["start: 0 wait", "line 1 after 0 min: |x|"]);
    daemon.minute(now + 1, &["line 2 after 1 min: |a|"]);
    daemon.minute(now + 2, &["line 3 after 2 min: |b|"]);
    // Line 4 waits since the first minute, line 1 since the second, line 2 since the third.
    site.table("* * * * * x\n* * * * * a\n");
    daemon.signal("-HUP");
    daemon.says(now + 2, &["reload: 2 of 3 wait on"]);
    daemon.minute(now + 3, &["line 2 after 3 min: |a|"]);
    daemon.minute(now + 4, &["line 1 after 3 min: |x|"]);
    daemon.signal("-TERM");
    daemon.says(now + 4, &["end: 1 wait, lines 2"]);
    daemon.ended();
}

/// Two jobs of every minute, both taken at once, with the setting that stands before them.
const WITH: &str = "                      with |A| = |b|";
const JOBS: [&str; 4] = [
    "line 2 after 0 min: |backup|",
    WITH,
    "line 3 after 0 min: |wipe|",
    WITH,
];

#[test]
fn a_bad_table_is_told_and_the_old_one_stays() {
    let site = Site::new("site-bad");
    let table = site.table(TABLE);
    let mut daemon = Running::start(&site, &["-j", "3"], &table);
    let now = evening();
    let boot = ["start: 1 wait", "line 4 after 0 min: |boot|", WITH];
    daemon.minute(now, &[&boot[..], &JOBS].concat());
    for (bad, fault) in [
        ("A=b\n61 * * * * x\n", "2:1: refused 6: "),
        ("@daily x", "1:9: refused 26: "),
    ] {
        site.table(bad);
        daemon.signal("-HUP");
        let line = daemon.log.recv_timeout(Duration::from_secs(20));
        let line = line.expect("a line");
        let start = format!("{}  reload: {table}:{fault}", date(now));
        assert!(line.starts_with(&start), "{line}");
    }
    fs::remove_file(&table).expect("the table is removed");
    daemon.signal("-HUP");
    let told = format!("reload: {table}: No such file or directory");
    daemon.says(now, &[&told]);
    daemon.minute(now + 1, &JOBS);
    daemon.signal("-TERM");
    daemon.says(now + 1, &["end: 0 wait"]);
    daemon.ended();
}

/// The clock's end is one, too.
#[test]
fn a_good_table_after_a_bad_one() {
    let site = Site::new("site-good");
    let table = site.table("@daily a\n");
    let mut daemon = Running::start(&site, &[], &table);
    let now = evening();
    daemon.minute(now, &["start: 0 wait"]);
    site.table("@daily");
    daemon.signal("-HUP");
    let line = daemon.log.recv_timeout(Duration::from_secs(20));
    assert!(line.is_ok_and(|line| line.contains("refused 9")));
    site.table("0 * * * * x\n");
    daemon.signal("-HUP");
    daemon.says(now, &["reload: 0 of 0 wait on"]);
    let jumped = ["the clock jumped by 60 min", "line 1 after 0 min: |x|"];
    daemon.minute(now + 60, &jumped);
    daemon.clock = None;
    daemon.says(now + 60, &["end: 0 wait"]);
    daemon.ended();
}

/// Who still waits at the end is named.
#[test]
fn the_end_names_who_waits() {
    let site = Site::new("site-end");
    let table = site.table("# a\n* * * * * b\n\n* * * * * c\n* * * * * d\n");
    let mut daemon = Running::start(&site, &[], &table);
    daemon.minute(evening(), &["start: 0 wait", "line 2 after 0 min: |b|"]);
    daemon.signal("-TERM");
    daemon.says(evening(), &["end: 2 wait, lines 4 5"]);
    daemon.ended();
}

/// The night that the daemon's page shows: two hours on and back, and a reload between them.
#[test]
fn the_night_of_the_page() {
    let site = Site::new("site-night");
    let [before, after] = ["night", "night_changed"]
        .map(|name| fs::read(root().join(format!("examples/{name}.crontab"))).expect("a table"));
    let [old, new] = [&before, &after].map(|table| read(table, Kind::User).expect("good"));
    let mut daemon = Running::start(&site, &[], &site.table(&before));
    // From 21:25 on, minute by minute: for two of them the clock is two hours ahead.
    let ahead = [0, 0, 0, 120, 120, 0, 0];
    let clock = (0..).zip(ahead).map(|(minute, ahead)| {
        let wall = evening() + 25 + minute + ahead;
        Shown::Seconds(60 * wall, 60 * minute)
    });
    let clock: Vec<Shown> = clock.collect();
    let mut model = Daemon::start(old, 1, clock[0]);
    daemon.clock(clock[0]);
    daemon.shows(&model.lines);
    for (minute, &shown) in (0..).zip(&clock).skip(1) {
        let before = model.lines.len();
        model.shown(shown);
        daemon.clock(shown);
        daemon.shows(&model.lines[before..]);
        if minute == 3 {
            site.table(&after);
            daemon.signal("-HUP");
            model.reload(new.clone());
            daemon.shows(&model.lines[model.lines.len() - 1..]);
        }
    }
    daemon.signal("-TERM");
    let log = model.end();
    daemon.shows(&log[log.len() - 1..]);
    daemon.ended();
    let block: String = log.iter().map(|line| format!("    {line}\n")).collect();
    let page = fs::read_to_string(root().join("docs/DAEMON.md")).expect("the page");
    assert!(page.contains(&block), "the page doesn't show:\n{block}");
}

/// The real clock: it starts at once, sleeps, and is woken by signals. What is said counts, and not when.
#[test]
fn the_real_clock() {
    let site = Site::new("site-real");
    let table = site.table("@reboot a\n0 0 30 2 * never\n");
    let daemon = Running::by_the_clock(&site, &[], &table);
    let says = |expected: &str| {
        let line = daemon.log.recv_timeout(Duration::from_secs(20));
        let line = line.expect("a line");
        assert!(line.ends_with(&format!("  {expected}")), "{line}");
    };
    says("start: 1 wait");
    says("line 1 after 0 min: |a|");
    for _ in 0..3 {
        daemon.signal("-HUP");
        says("reload: 0 of 0 wait on");
    }
    daemon.signal("-TERM");
    says("end: 0 wait");
    daemon.ended();
}
