//! A subcommand of `eremothyn`, built for a test, and the folder that it runs in.

use crate::{build_command, scratch, scratch_outside, told};
use std::env;
use std::ffi::OsStr;
use std::fs;
use std::io::Write;
use std::path::{Path, PathBuf};
use std::process::{Command, Output, Stdio};
use std::sync::OnceLock;

pub struct Subcommand {
    pub folder: PathBuf,
    pub program: PathBuf,
    name: &'static str,
}

/// The command, built once for all tests that run together.
fn built() -> &'static Path {
    static BUILT: OnceLock<PathBuf> = OnceLock::new();
    BUILT.get_or_init(|| {
        let tests = env::current_exe().expect("the tests' own name");
        let tests = tests.file_stem().expect("a name").to_string_lossy();
        build_command(&scratch(&format!("command-for-{tests}")))
    })
}

impl Subcommand {
    /// The subcommand in a folder of its own.
    pub fn new(name: &'static str, folder: &str) -> Subcommand {
        Subcommand {
            folder: scratch(folder),
            program: built().to_path_buf(),
            name,
        }
    }

    /// The same in a folder outside the checkout, for a test that makes links.
    pub fn new_outside(name: &'static str, folder: &str) -> Subcommand {
        Subcommand {
            folder: scratch_outside(folder),
            ..Subcommand::new(name, folder)
        }
    }

    /// Copies the program. Another process does it: one that had the copy open to write, or a child of it that is just
    /// started, would keep it from being run.
    pub fn copy_program(&self, to: &Path) {
        let copied = Command::new("cp").arg(&self.program).arg(to).status();
        assert!(copied.expect("cp runs").success());
    }

    pub fn write(&self, name: &str, table: impl AsRef<[u8]>) -> PathBuf {
        let path = self.folder.join(name);
        fs::write(&path, table).expect("the table is written");
        path
    }

    pub fn read(&self, name: &str) -> Vec<u8> {
        fs::read(self.folder.join(name)).expect("the table is read")
    }

    /// What `eremothyn check` prints of a file that is refused.
    pub fn verdict(&self, name: &str) -> String {
        self.verdict_by(&[], name)
    }

    /// The same with options.
    pub fn verdict_by(&self, options: &[&str], name: &str) -> String {
        let check = Command::new(&self.program)
            .current_dir(&self.folder)
            .arg("check")
            .args(options)
            .arg(name)
            .output();
        let (verdict, status) = told(&check.expect("the command runs"));
        assert_eq!(status, Some(1), "{verdict}");
        verdict
    }

    pub fn run<A: AsRef<OsStr>>(&self, arguments: &[A]) -> Output {
        self.run_with(arguments, b"")
    }

    /// The same with a standard input.
    pub fn run_with<A: AsRef<OsStr>>(&self, arguments: &[A], input: &[u8]) -> Output {
        let mut child = self
            .command(arguments)
            .stdin(Stdio::piped())
            .stdout(Stdio::piped())
            .stderr(Stdio::piped())
            .spawn()
            .expect("the command runs");
        // A command that doesn't read its input may be gone already.
        let _ = child.stdin.take().expect("a pipe").write_all(input);
        child.wait_with_output().expect("the command ends")
    }

    /// The same in the shell, with something behind it: `>&-` closes its standard output.
    pub fn run_before(&self, arguments: &[&str], behind: &str) -> Output {
        let script = format!("\"$0\" \"$@\" {behind}");
        let mut shell = Command::new("sh");
        shell.current_dir(&self.folder).args(["-c", &script]);
        shell.arg(&self.program).arg(self.name).args(arguments);
        shell.output().expect("the shell runs")
    }

    /// The call, for a test that runs it in its own way.
    pub fn command<A: AsRef<OsStr>>(&self, arguments: &[A]) -> Command {
        let mut command = Command::new(&self.program);
        command
            .current_dir(&self.folder)
            .arg(self.name)
            .args(arguments);
        command
    }
}
