//! What the commands of the README need: what is missing is named at once, with its package, before anything else is done.

use c::{all, is, root, scratch, scratch_outside, word};
use std::fs;
use std::os::unix::fs::PermissionsExt;
use std::path::{Path, PathBuf};
use std::process::{Command, Output};

const TRY: [&str; 3] = ["rt", "make", "cc"];
const GATE: [&str; 12] = [
    "rt",
    "make",
    "cc",
    "c++",
    "cargo",
    "cargo-fmt",
    "clang-format",
    "pkg-config",
    "groff",
    "script",
    "dpkg-deb",
    "fakeroot",
];

/// The Debian packages that have them; the kit is none.
fn package(name: &str) -> Option<&str> {
    match name {
        "rt" => None,
        "cc" => Some("gcc"),
        "c++" => Some("g++"),
        "cargo-fmt" => Some("rustfmt"),
        "groff" => Some("groff-base"),
        "script" => Some("bsdutils"),
        "dpkg-deb" => Some("dpkg"),
        other => Some(other),
    }
}

fn executable(folder: &Path, name: &str, script: &str) {
    let path = folder.join(name);
    fs::write(&path, format!("#!/bin/sh\n{script}\n")).expect("a script is written");
    fs::set_permissions(&path, fs::Permissions::from_mode(0o755)).expect("it can be run");
}

/// Puts a command that is there into a folder, unless the shell alone has it. It is a copy, since `rt ci` takes no checkout that
/// has a link; and another process makes it, so that no child of this one keeps it from being run.
fn borrow(folder: &Path, name: &str) {
    let real = Command::new("sh")
        .args(["-c", &format!("command -v {name}")])
        .output();
    let real = String::from_utf8(real.expect("sh runs").stdout).expect("a path");
    let real = real.trim_end();
    if real.starts_with('/') {
        copy(Path::new(real), &folder.join(name));
    }
}

fn copy(from: &Path, to: &Path) {
    let copied = Command::new("cp")
        .arg("-R")
        .arg("-L")
        .args([from, to])
        .status();
    assert!(copied.expect("cp runs").success(), "{from:?}");
}

/// A PATH that has what a shell script needs, and something by each of these names; nobody is root there.
fn path_with(folder: &str, names: &[&str]) -> PathBuf {
    let folder = scratch(folder);
    for name in ["sh", "bash", "dirname", "rm"] {
        borrow(&folder, name);
    }
    executable(&folder, "id", "echo 1000");
    for name in names {
        executable(&folder, name, "exit 0");
    }
    folder
}

fn run(path: &Path, command: &str, arguments: &[&str]) -> Output {
    let output = Command::new(root().join(command))
        .current_dir(root())
        .args(arguments)
        .env("PATH", path)
        .output();
    output.expect("the command runs")
}

/// What is said of some that are missing.
fn said(missing: &[&str]) -> String {
    let mut text = format!(".ci/needs: missing: {}\n", missing.join(" "));
    for name in missing {
        text += &match package(name) {
            Some(package) => format!("  {name}: package {package}\n"),
            None => format!(
                "  {name}: the Rattle kit, which is no package; see 'What it needs' in README.md, and 'Without the kit'\n"
            ),
        };
    }
    let packages: Vec<&str> = missing.iter().filter_map(|name| package(name)).collect();
    if !packages.is_empty() {
        text += &format!(
            "On Debian, as root: apt-get install {}\n",
            packages.join(" ")
        );
    }
    text
}

#[test]
fn each_that_is_missing_is_named() {
    for (command, needs) in [("try", &TRY[..]), (".ci/run", &GATE)] {
        for missing in needs {
            let others: Vec<&str> = needs
                .iter()
                .copied()
                .filter(|name| name != missing)
                .collect();
            let path = path_with("needs-one", &others);
            assert_eq!(
                all(&run(&path, command, &[])),
                is("", &said(&[missing]), 1),
                "{missing}"
            );
        }
    }
}

#[test]
fn all_that_are_missing_are_named_at_once() {
    let path = path_with("needs-all", &[]);
    assert_eq!(all(&run(&path, "try", &[])), is("", &said(&TRY), 1));
    assert_eq!(all(&run(&path, ".ci/run", &[])), is("", &said(&GATE), 1));
    let path = path_with("needs-none", &GATE);
    let arguments = GATE;
    assert_eq!(all(&run(&path, ".ci/needs", &arguments)), is("", "", 0));
}

/// A PATH on which everyone is root, with an apt-get that does as it is told.
fn as_root(folder: &str, names: &[&str], apt_get: &str) -> PathBuf {
    let path = path_with(folder, names);
    executable(&path, "id", "echo 0");
    executable(&path, "apt-get", apt_get);
    path
}

#[test]
fn root_gets_the_packages_installed() {
    let install = "echo apt-get \"$@\"; test $1 = update || { echo > ${0%/*}/cargo; echo > ${0%/*}/c++; }; /bin/chmod +x ${0%/*}/c*";
    let path = as_root("needs-root", &["rt", "make", "cc"], install);
    let asked = "./.ci/needs: installing g++ cargo\napt-get update\napt-get install -y --no-install-recommends g++ cargo\n";
    let asked = asked.replace("./.ci", word(&root().join(".ci")));
    let needs = ["rt", "make", "cc", "c++", "cargo"];
    assert_eq!(all(&run(&path, ".ci/needs", &needs)), is("", &asked, 0));
    // They are there now.
    assert_eq!(all(&run(&path, ".ci/needs", &needs)), is("", "", 0));
}

/// The name by which `.ci/needs` calls itself if it is run by its whole path.
fn by_path(text: &str) -> String {
    let command = root().join(".ci/needs");
    text.replace(".ci/needs:", &format!("{}:", word(&command)))
}

/// An apt-get that fails, or leaves one out: what is still missing is named. The kit alone is none of its packages.
#[test]
fn what_no_package_brought_is_still_named() {
    let needs = ["rt", "make", "groff"];
    let named = |missing: &[&str]| {
        said(missing).replace(
            ".ci/needs:",
            &format!("{}:", word(&root().join(".ci/needs"))),
        )
    };
    let path = as_root("needs-failing", &["make"], "exit 100");
    let (text, complaint, status) = all(&run(&path, ".ci/needs", &needs));
    assert_eq!((text.as_str(), status), ("", Some(1)));
    assert!(complaint.ends_with(&named(&["rt", "groff"])), "{complaint}");
    let path = as_root("needs-kit", &["make", "groff"], "exit 100");
    assert_eq!(
        all(&run(&path, ".ci/needs", &needs)),
        is("", &named(&["rt"]), 1)
    );
}

/// An apt-get that fails: what is still missing is named after what it tried.
#[test]
fn a_failed_installation_names_what_is_missing() {
    let path = as_root("needs-failed", &["rt", "make"], "exit 100");
    let missing = ["cargo", "groff"];
    let (text, complaint, status) = all(&run(&path, ".ci/needs", &missing));
    assert_eq!((text.as_str(), status), ("", Some(1)));
    let installing = by_path(".ci/needs: installing cargo groff-base\n");
    assert_eq!(complaint, installing + &by_path(&said(&missing)));
}

/// Without the kit nothing is installed, whatever else is missing: both commands only say so.
#[test]
fn nothing_is_installed_without_the_kit() {
    let apt_get = "echo apt-get \"$@\" >&2";
    let rows: [(&[&str], &[&str]); 3] = [
        (&TRY, &[]),
        (&["rt", "cc"], &["make"]),
        (&["rt"], &["make", "cc"]),
    ];
    for (missing, names) in rows {
        let path = as_root("needs-no-kit", names, apt_get);
        assert_eq!(all(&run(&path, "try", &[])), is("", &said(missing), 1));
    }
    let path = as_root("needs-no-kit", &["make", "cargo", "fakeroot"], apt_get);
    let missing = [
        "rt",
        "cc",
        "c++",
        "cargo-fmt",
        "clang-format",
        "pkg-config",
        "groff",
        "script",
        "dpkg-deb",
    ];
    assert_eq!(all(&run(&path, ".ci/run", &[])), is("", &said(&missing), 1));
}

/// `make all` in a tree that was never built.
#[test]
fn make_without_the_kit_says_so() {
    let folder = scratch_outside("needs-make");
    let path = path_with("needs-make-path", &[]);
    for name in ["make", "find", "sed", "git", "mkdir", "cc", "date", "echo"] {
        borrow(&path, name);
    }
    for name in [
        "Makefile",
        ".ci",
        "crates.txt",
        "include",
        "programs",
        "packaging",
    ] {
        copy(&root().join(name), &folder.join(name));
    }
    fs::create_dir(folder.join("crates")).expect("a folder");
    let output = Command::new(path.join("make"))
        .current_dir(&folder)
        .arg("all")
        .env("PATH", &path)
        .output();
    let (_, complaint, status) = all(&output.expect("make runs"));
    assert_eq!(status, Some(2), "{complaint}");
    assert!(complaint.starts_with(&said(&["rt"])), "{complaint}");
}

/// The README names every one of them, and has the sections that the message names.
#[test]
fn the_readme_tells_of_them() {
    let readme = fs::read_to_string(root().join("README.md")).expect("the README");
    for name in GATE {
        assert!(readme.contains(&format!("`{name}`")), "{name}");
    }
    for part in ["\n## What it needs\n", "\n## Without the kit\n"] {
        assert!(readme.contains(part), "{part}");
    }
}
