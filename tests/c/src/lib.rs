//! Compiling and running C programs at the repository's root.

pub mod shown;
pub mod sources;
mod subcommand;

pub use subcommand::Subcommand;

use std::env;
use std::ffi::OsStr;
use std::fs::{self, File};
use std::path::{Path, PathBuf};
use std::process::{Command, Output, Stdio};
use std::sync::{Mutex, PoisonError};

const STRICT: [&str; 5] = ["-Wall", "-Wextra", "-Wpedantic", "-Wconversion", "-Werror"];

pub fn root() -> PathBuf {
    Path::new(env!("CARGO_MANIFEST_DIR")).join("../..")
}

/// A folder for what a test makes, empty at first.
pub fn scratch(name: &str) -> PathBuf {
    let folder = root().join("target/c-tests").join(name);
    let _ = fs::remove_dir_all(&folder);
    fs::create_dir_all(&folder).expect("the folder is made");
    folder.canonicalize().expect("the folder is there")
}

/// The same outside the checkout, for a test that makes links or a second `crates.txt`: `rt ci` takes no checkout that has one.
pub fn scratch_outside(name: &str) -> PathBuf {
    let checkout = root().canonicalize().expect("the root is there");
    let own = word(&checkout).replace('/', "-");
    let folder = env::temp_dir()
        .join(format!("eremothyn-tests{own}"))
        .join(name);
    let _ = fs::remove_dir_all(&folder);
    fs::create_dir_all(&folder).expect("the folder is made");
    folder.canonicalize().expect("the folder is there")
}

/// A path as a word for a command line.
pub fn word(path: &Path) -> &str {
    path.to_str().expect("a path in UTF-8")
}

/// Runs a program at the root.
pub fn run<A: AsRef<OsStr>>(program: impl AsRef<OsStr>, arguments: &[A]) -> Output {
    Command::new(&program)
        .current_dir(root())
        .args(arguments)
        .output()
        .unwrap_or_else(|error| panic!("{:?}: {error}", program.as_ref()))
}

/// Runs `make` at the root. Tests run side by side, and what it builds is one tree: one `make` at a time.
pub fn make(arguments: &[&str]) -> Output {
    static MAKING: Mutex<()> = Mutex::new(());
    let _alone = MAKING.lock().unwrap_or_else(PoisonError::into_inner);
    let output = run("make", arguments);
    assert!(output.status.success(), "make {arguments:?}: {output:?}");
    output
}

/// Runs a compiler with every warning an error.
pub fn compile(compiler: &str, standard: &str, arguments: &[&str]) {
    let arguments = [&[standard], &STRICT[..], arguments].concat();
    let output = run(compiler, &arguments);
    assert!(
        output.status.success(),
        "{compiler} {arguments:?}: {output:?}"
    );
}

/// Builds a C program of the repository into a folder, and says where it is.
pub fn build(sources: &[&str], folder: &Path) -> PathBuf {
    let program = folder.join("program");
    let output = ["-Iinclude", "-o", word(&program)];
    let library = ["target/staticlib/liberemothyn.a"];
    compile("cc", "-std=c99", &[&output, sources, &library].concat());
    program
}

/// Builds the command `eremothyn` into a folder, and says where it is.
pub fn build_command(folder: &Path) -> PathBuf {
    let sources: Vec<PathBuf> = sources::files(&root().join("programs"))
        .into_iter()
        .filter(|path| path.extension() == Some(OsStr::new("c")))
        .collect();
    let sources: Vec<&str> = sources.iter().map(|path| word(path)).collect();
    build(&[&["-Iprograms"], &sources[..]].concat(), folder)
}

/// What becomes of a command whose standard output is full.
pub fn filled(command: &mut Command) -> Output {
    let full = File::options().write(true).open("/dev/full");
    let child = command
        .stdout(full.expect("a full device"))
        .stderr(Stdio::piped())
        .spawn();
    child
        .and_then(|child| child.wait_with_output())
        .expect("the command runs")
}

/// What a program wrote to standard output, and its exit status.
pub fn told(output: &Output) -> (String, Option<i32>) {
    let text = String::from_utf8_lossy(&output.stdout).into_owned();
    (text, output.status.code())
}

/// What a program wrote to standard error.
pub fn complaint(output: &Output) -> String {
    String::from_utf8_lossy(&output.stderr).into_owned()
}

/// Standard output, standard error and the exit status, as texts and a number.
pub fn all(output: &Output) -> (String, String, Option<i32>) {
    let (text, status) = told(output);
    (text, complaint(output), status)
}

/// The same as they should be.
pub fn is(text: &str, complaint: &str, status: i32) -> (String, String, Option<i32>) {
    (text.to_string(), complaint.to_string(), Some(status))
}
