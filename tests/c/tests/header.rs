//! The header as C and C++ compilers take it, with every warning an error; and lists of firings as it says to have them.

use c::{build, compile, run, scratch, told, word};
use std::fs;
use std::process::Command;

/// Whether a compiler is there, and takes a standard: an empty program says so.
fn takes(compiler: &str, standard: &str, language: &str) -> bool {
    let arguments = [standard, "-fsyntax-only", "-x", language, "/dev/null"];
    Command::new(compiler)
        .args(arguments)
        .output()
        .is_ok_and(|output| output.status.success())
}

/// Every standard by every compiler that is there, with every warning an error. 2023 has two names.
#[test]
fn the_header_compiles_as_c_and_as_cpp() {
    let c = ["c99", "c11", "c17", "c2x", "c23"];
    let cpp = ["c++98", "c++11", "c++17", "c++20", "c++23"];
    let rows = [
        (["cc", "gcc", "clang"], "c", c),
        (["c++", "g++", "clang++"], "c++", cpp),
    ];
    let source = scratch("header").join("source");
    fs::write(&source, "#include \"eremothyn.h\"\n").expect("the source is written");
    let mut taken = 0;
    for (compilers, language, standards) in rows {
        for compiler in compilers {
            for standard in standards.map(|standard| format!("-std={standard}")) {
                if takes(compiler, &standard, language) {
                    let arguments = ["-Iinclude", "-fsyntax-only", "-x", language, word(&source)];
                    compile(compiler, &standard, &arguments);
                    taken += 1;
                }
            }
        }
    }
    // At least those of the two compilers that the gate needs anyway.
    assert!(taken >= 6, "{taken} pairs of a compiler and a standard");
}

/// The examples and the command, by every C compiler that is there.
#[test]
fn the_programs_compile_under_every_standard() {
    let sources = [
        "examples/daemon.c",
        "examples/site_daemon.c",
        "examples/date.c",
    ];
    for compiler in ["gcc", "clang"] {
        for standard in ["-std=c99", "-std=c11", "-std=c17", "-std=c2x", "-std=c23"] {
            for source in sources {
                if takes(compiler, standard, "c") {
                    compile(compiler, standard, &["-Iinclude", "-fsyntax-only", source]);
                }
            }
        }
    }
}

#[test]
fn lists_go_on_as_the_header_says() {
    let program = build(&["tests/c/programs/lists.c"], &scratch("header-lists"));
    let one = " 4 8 12\n".repeat(16);
    let merged = " 3:2 4:0 6:2 8:0 9:2 12:0 12:2\n".repeat(13);
    assert_eq!(told(&run::<&str>(program, &[])), (one + &merged, Some(0)));
}
