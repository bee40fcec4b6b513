//! The installed tree as a C programmer uses it: by pkg-config, from C and C++, and by the manual.

use c::{compile, make, root, run, scratch, told, word};
use std::fs;
use std::path::Path;

const PREFIX: &str = "/opt/engine";

/// `make` for a tree below a folder.
fn make_below(folder: &Path, target: &str) {
    let below = format!("DESTDIR={}", word(folder));
    let _ = make(&[target, &below, &format!("PREFIX={PREFIX}")]);
}

fn install(folder: &Path) {
    make_below(folder, "install");
}

/// What pkg-config answers for the tree below a folder.
fn flags(folder: &Path, question: &[&str]) -> Vec<String> {
    let output = std::process::Command::new("pkg-config")
        .env(
            "PKG_CONFIG_PATH",
            format!("{}{PREFIX}/lib/pkgconfig", word(folder)),
        )
        .env("PKG_CONFIG_SYSROOT_DIR", folder)
        .args(question)
        .arg("eremothyn")
        .output()
        .expect("pkg-config runs");
    let (text, status) = told(&output);
    assert_eq!(status, Some(0), "{output:?}");
    text.split_whitespace().map(str::to_string).collect()
}

/// Compiles a program with what pkg-config says of the tree below a folder.
fn compile_installed(folder: &Path, compiler: &str, standard: &str, source: &str, program: &Path) {
    let cflags = flags(folder, &["--cflags"]);
    let libs = flags(folder, &["--libs"]);
    let output = [
        "-o".to_string(),
        word(program).to_string(),
        source.to_string(),
    ];
    let arguments = [&cflags[..], &output, &libs].concat();
    let arguments: Vec<&str> = arguments.iter().map(String::as_str).collect();
    compile(compiler, standard, &arguments);
}

/// The C program that the README shows first.
fn readme_program() -> String {
    let readme = fs::read_to_string(root().join("README.md")).expect("the README");
    let (_, rest) = readme.split_once("```c\n").expect("a C program");
    let (program, _) = rest.split_once("```").expect("its end");
    program.to_string()
}

#[test]
fn a_c_and_a_cpp_program_compile_against_the_installed_tree() {
    let folder = scratch("install-programs");
    install(&folder);
    for (compiler, standard, source) in [
        ("cc", "-std=c99", "first.c"),
        ("c++", "-std=c++17", "first.cpp"),
    ] {
        let path = folder.join(source);
        fs::write(&path, readme_program()).expect("the program is written");
        let program = folder.join("first");
        compile_installed(&folder, compiler, standard, word(&path), &program);
        assert_eq!(
            told(&run::<&str>(&program, &[])),
            ("fires next at minute 5\n".to_string(), Some(0))
        );
    }
}

/// What stands in the installed examples is all that one needs to build them.
#[test]
fn the_installed_examples_build() {
    let folder = scratch("install-examples");
    install(&folder);
    let examples = format!("{}{PREFIX}/share/doc/eremothyn/examples", word(&folder));
    for name in ["daemon", "site_daemon", "date"] {
        let source = format!("{examples}/{name}.c");
        compile_installed(&folder, "cc", "-std=c99", &source, &folder.join(name));
    }
}

#[test]
fn the_installed_command_runs_and_the_version_is_told() {
    let folder = scratch("install-command");
    install(&folder);
    let command = format!("{}{PREFIX}/bin/eremothyn", word(&folder));
    assert_eq!(
        told(&run(&command, &["check", "examples/observatory.crontab"])),
        (
            "examples/observatory.crontab: 11 entries\n".to_string(),
            Some(0)
        )
    );
    let examples = format!("{}{PREFIX}/share/doc/eremothyn/examples", word(&folder));
    let rows: [(&[&str], &str, u64); 3] = [
        (&["--system"], "system", 5),
        (&[], "two_sites", 6),
        (&["--dialect", "wrapping"], "over_midnight", 4),
    ];
    for (options, name, entries) in rows {
        let table = format!("{examples}/{name}.crontab");
        let line = format!("{table}: {entries} entries\n");
        let arguments = [&["check"], options, &[&table]].concat();
        assert_eq!(told(&run(&command, &arguments)), (line, Some(0)));
    }
    let lister = format!("{}{PREFIX}/bin/crontab_firings", word(&folder));
    let two_sites = format!("{examples}/two_sites.crontab");
    assert_eq!(
        told(&run(&lister, &[&two_sites, "29912760", "29912820"])),
        ("29912775 5\n29912820 0\n".to_string(), Some(0))
    );
    let header = fs::read_to_string(root().join("include/eremothyn.h")).expect("the header");
    let version = flags(&folder, &["--modversion"]);
    assert!(header.contains(&format!("EREMOTHYN_VERSION \"{}\"\n", version[0])));
    let line = format!("eremothyn {}\n", version[0]);
    assert_eq!(told(&run(&command, &["--version"])), (line, Some(0)));
}

/// Every function, refusal and limit of the header is in the manual, and `man FUNCTION` finds the page.
#[test]
fn the_manual_has_all_of_the_header() {
    let folder = scratch("install-manual");
    install(&folder);
    let manual = format!("{}{PREFIX}/share/man", word(&folder));
    let page = fs::read_to_string(format!("{manual}/man3/eremothyn.3")).expect("the page");
    let header = fs::read_to_string(root().join("include/eremothyn.h")).expect("the header");
    let is_name = |byte: char| byte.is_ascii_alphanumeric() || byte == '_';
    let names = |prefix: &str| -> Vec<&str> {
        let mut names: Vec<&str> = header
            .split(|byte| !is_name(byte))
            .filter(|name| name.starts_with(prefix))
            .collect();
        names.sort();
        names.dedup();
        names
    };
    let functions = names("eremothyn_");
    assert_eq!(functions.len(), 41);
    for function in &functions {
        assert!(page.contains(&format!("{function}(")), "{function}");
        let found = fs::read_to_string(format!("{manual}/man3/{function}.3"))
            .expect("a page of its own name");
        assert_eq!(found, ".so man3/eremothyn.3\n");
    }
    // What each refuses stands in a row of its own; the words refuse nothing.
    for function in functions.iter().filter(|&&name| name != "eremothyn_words") {
        assert!(page.contains(&format!("\n{function}|")), "{function}");
    }
    // Names can be searched for and copied: no break is put into one.
    assert!(page.contains("\n.nh\n") && !page.contains("\\%"));
    for name in names("EREMOTHYN_")
        .iter()
        .filter(|&&name| name != "EREMOTHYN_H")
    {
        assert!(page.contains(name), "{name}");
    }
}

/// The formatter takes every page without a warning. Those of single functions only name another.
#[test]
fn the_pages_are_well_formed() {
    let folder = scratch("install-pages");
    install(&folder);
    let manual = format!("{}{PREFIX}/share/man", word(&folder));
    let (pages, _) = told(&run("find", &[&manual, "-type", "f"]));
    let pages = pages.lines().filter(|page| !page.contains("/eremothyn_"));
    let mut count = 0;
    for page in pages {
        let output = run("groff", &["-t", "-man", "-ww", "-z", "-Tutf8", page]);
        let silent = output.stdout.is_empty() && output.stderr.is_empty();
        assert!(output.status.success() && silent, "{page}: {output:?}");
        count += 1;
    }
    assert!(count >= 9, "{count} pages");
}

/// A prefix may have a space in it: pkg-config's words are taken apart as a shell does it.
#[test]
fn a_prefix_with_a_space() {
    let folder = scratch("install-space");
    let prefix = format!("{}/an engine", word(&folder));
    let _ = make(&["install", &format!("PREFIX={prefix}")]);
    let source = folder.join("first.c");
    fs::write(&source, readme_program()).expect("the program is written");
    let script = r#"cd "$1" && export PKG_CONFIG_PATH="$1/an engine/lib/pkgconfig" && \
        eval "cc -std=c99 -o first first.c $(pkg-config --cflags --libs eremothyn)" && ./first"#;
    let output = run("sh", &["-c", script, "sh", word(&folder)]);
    let told_so = told(&output);
    assert_eq!(
        told_so,
        ("fires next at minute 5\n".to_string(), Some(0)),
        "{output:?}"
    );
    let command = format!("{prefix}/bin/eremothyn");
    let checked = run(&command, &["check", "examples/observatory.crontab"]);
    assert_eq!(checked.status.code(), Some(0));
    let _ = make(&["uninstall", &format!("PREFIX={prefix}")]);
    let left = run("find", &[&prefix, "-type", "f"]);
    assert_eq!(told(&left), (String::new(), Some(0)));
}

#[test]
fn uninstall_leaves_nothing() {
    let folder = scratch("install removed");
    install(&folder);
    make_below(&folder, "uninstall");
    let left = run("find", &[word(&folder), "-type", "f"]);
    assert_eq!(told(&left), (String::new(), Some(0)));
}
