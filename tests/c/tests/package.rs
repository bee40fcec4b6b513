//! The tarball and the Debian package: the same bytes whoever packs them, and all that a C programmer needs.

use c::{all, is, make, root, run, scratch, told, word};
use std::fs;
use std::path::{Path, PathBuf};
use std::process::Command;
use std::sync::{Mutex, MutexGuard, PoisonError};

fn version() -> String {
    let header = fs::read_to_string(root().join("include/eremothyn.h")).expect("the header");
    let (_, rest) = header
        .split_once("EREMOTHYN_VERSION \"")
        .expect("a version");
    rest.split('"').next().expect("its end").to_string()
}

/// The packages are made in one folder, so only one test at a time makes them.
fn alone() -> MutexGuard<'static, ()> {
    static PACKING: Mutex<()> = Mutex::new(());
    PACKING.lock().unwrap_or_else(PoisonError::into_inner)
}

/// Makes something twice, at other times and for another user's eyes, and says where it is: both have the same bytes.
fn made_twice(target: &str, name: &str) -> PathBuf {
    let path = root().join("target/dist").join(name);
    let _ = make(&["-s", target]);
    let first = fs::read(&path).expect("a file");
    // The clock goes on by a second, by which a file's time would show.
    std::thread::sleep(std::time::Duration::from_millis(1_100));
    let script = format!("umask 077 && TZ=Asia/Tokyo LC_ALL=C.UTF-8 make -s {target}");
    let again = run("sh", &["-c", &script]);
    assert!(again.status.success(), "{again:?}");
    assert!(first == fs::read(&path).expect("a file"), "{name} differs");
    path
}

/// Runs a script in a folder.
fn script_in(folder: &Path, script: &str) -> (String, String, Option<i32>) {
    let output = Command::new("sh")
        .current_dir(folder)
        .args(["-euc", script])
        .output();
    all(&output.expect("sh runs"))
}

/// What is built against a tree, by what pkg-config says of it: the README's first program, and the example that is to be copied.
const BUILD: &str = r#"
    cc -std=c99 -o daemon "$examples/daemon.c" $(pkg-config --cflags --libs eremothyn)
    ./daemon "$examples/observatory.crontab" 1 1970-01-01T00:00 1970-01-01T00:00 | tail -n 1
"#;
const BUILT: &str = "1970-01-01 Thu 00:00  start entry  6  |heaters on|\n";

#[test]
fn the_tarball_can_be_unpacked_anywhere_and_used() {
    let _alone = alone();
    let name = format!("eremothyn-{}-x86_64-linux", version());
    let tarball = made_twice("dist", &format!("{name}.tar.gz"));
    let folder = scratch("package-tarball");
    let unpack = format!("tar -xzf '{}' && mv {name} 'an engine'", word(&tarball));
    assert_eq!(script_in(&folder, &unpack), is("", "", 0));
    let checked = script_in(
        &folder,
        "cd 'an engine' && sha256sum --quiet -c SHA256SUMS && wc -l < SHA256SUMS",
    );
    let files = "cd 'an engine' && find . -type f ! -name SHA256SUMS | wc -l";
    assert_eq!(checked, script_in(&folder, files));
    let whole = format!("sha256sum --quiet -c {name}.tar.gz.sha256");
    assert_eq!(
        script_in(&root().join("target/dist"), &whole),
        is("", "", 0)
    );
    let build = format!(
        "mv 'an engine' engine && PKG_CONFIG_PATH=$PWD/engine/lib/pkgconfig && export PKG_CONFIG_PATH
        examples=engine/share/doc/eremothyn/examples {BUILD}"
    );
    assert_eq!(script_in(&folder, &build), is(BUILT, "", 0));
    let version = format!("eremothyn {}\n", version());
    assert_eq!(
        script_in(&folder, "engine/bin/eremothyn --version"),
        is(&version, "", 0)
    );
    // What is there and how it is used, by its own words.
    let readme = fs::read_to_string(folder.join("engine/share/doc/eremothyn/README"));
    let readme = readme.expect("its words");
    let shown = readme.lines().filter_map(|line| line.strip_prefix("  "));
    let (paths, commands): (Vec<&str>, Vec<&str>) =
        shown.partition(|line| line.split_once("   ").is_some());
    let named = paths.iter().filter(|line| !line.starts_with(' '));
    for path in named.map(|line| line.split(' ').next().expect("a path")) {
        assert!(folder.join("engine").join(path).exists(), "{path}");
    }
    assert_eq!(commands.len(), 3, "{readme}");
    let used = "eremothyn --version
        ./a.out share/doc/eremothyn/examples/observatory.crontab 1 1970-01-01T00:00 1970-01-01T00:00 | tail -n 1";
    let script = format!("cd engine\n{}\n{used}", commands.join("\n"));
    assert_eq!(
        script_in(&folder, &script),
        is(&format!("{version}{BUILT}"), "", 0)
    );
    assert_eq!(script_in(&folder, "rm engine/a.out"), is("", "", 0));
    // Nobody but the owner may write, and all may read.
    let odd = "find engine ! -perm 644 ! -perm 755";
    assert_eq!(script_in(&folder, odd), is("", "", 0));
}

/// dpkg below a folder, with a database of its own. Whoever isn't root pretends to be.
fn dpkg(folder: &Path, arguments: &str) -> (String, String, Option<i32>) {
    let script = format!(
        "as= && test $(id -u) = 0 || as=fakeroot
        $as dpkg --root=$PWD/root --force-not-root,depends,script-chrootless --log=/dev/null {arguments} 2>&1"
    );
    script_in(folder, &script)
}

#[test]
fn the_debian_package_is_installed_used_and_removed() {
    let _alone = alone();
    let name = format!("eremothyn_{}_amd64.deb", version());
    let package = made_twice("deb", &name);
    let folder = scratch("package-deb");
    let database =
        "mkdir -p root/var/lib/dpkg/info root/var/lib/dpkg/updates && : > root/var/lib/dpkg/status";
    assert_eq!(script_in(&folder, database), is("", "", 0));
    let installed = dpkg(&folder, &format!("-i '{}'", word(&package)));
    assert_eq!(installed.2, Some(0), "{installed:?}");
    let state = dpkg(&folder, "--status eremothyn");
    assert!(
        state.0.contains("Status: install ok installed\n"),
        "{state:?}"
    );
    let verified = dpkg(&folder, "--verify eremothyn");
    assert_eq!(verified, is("", "", 0), "a checksum differs");
    let build = format!(
        "export PKG_CONFIG_SYSROOT_DIR=$PWD/root PKG_CONFIG_PATH=$PWD/root/usr/lib/x86_64-linux-gnu/pkgconfig
        examples=root/usr/share/doc/eremothyn/examples {BUILD}"
    );
    assert_eq!(script_in(&folder, &build), is(BUILT, "", 0));
    let needed = "objdump -T root/usr/bin/* | grep -o 'GLIBC_2[.0-9]*' | sort -V | tail -n 1 | sed 's/GLIBC_\\(.*\\)/libc6 (>= \\1)/'";
    let depends = format!("dpkg-deb -f '{}' Depends", word(&package));
    assert_eq!(
        script_in(&folder, &depends),
        script_in(&folder, needed),
        "another glibc is needed"
    );
    let page = "zcat root/usr/share/man/man1/eremothyn.1.gz | head -n 1 | cut -c 1-13";
    assert_eq!(script_in(&folder, page), is(".TH EREMOTHYN\n", "", 0));
    let removed = dpkg(&folder, "-P eremothyn");
    assert_eq!(removed.2, Some(0), "{removed:?}");
    assert_eq!(
        script_in(&folder, "find root ! -path '*/var/*' -type f"),
        is("", "", 0)
    );
}

/// The Debian package has no error by lintian, if that is installed; and its changelog has the version.
#[test]
fn lintian_finds_no_error() {
    let changelog = fs::read_to_string(root().join("packaging/changelog")).expect("the changelog");
    let first = format!("eremothyn ({}) ", version());
    assert!(
        changelog.starts_with(&first),
        "packaging/changelog: the first entry isn't for this version"
    );
    if told(&run("sh", &["-c", "command -v lintian"])).1 != Some(0) {
        eprintln!("lintian isn't installed: the package isn't checked by it");
        return;
    }
    let _alone = alone();
    let _ = make(&["-s", "deb"]);
    let package = format!("target/dist/eremothyn_{}_amd64.deb", version());
    let (found, status) = told(&run("lintian", &["--fail-on", "error", &package]));
    assert_eq!(status, Some(0), "{found}");
}

/// The package and the tarball have the same programs, library, header, manual and examples.
#[test]
fn both_have_the_same() {
    let _alone = alone();
    let _ = make(&["-s", "dist"]);
    let _ = make(&["-s", "deb"]);
    let names = |script: &str| {
        let (text, status) = told(&run("sh", &["-euc", script]));
        assert_eq!(status, Some(0));
        let mut names: Vec<String> = text.lines().map(str::to_string).collect();
        names.sort();
        names
    };
    let version = version();
    let tarball = names(&format!(
        "tar -tzf target/dist/eremothyn-{version}-x86_64-linux.tar.gz | grep -v '/$' | grep -v SHA256SUMS | cut -d / -f 2-"
    ));
    let package = names(&format!(
        "dpkg-deb --fsys-tarfile target/dist/eremothyn_{version}_amd64.deb | tar -t | grep -v '/$' |
        sed -e 's|^./usr/||' -e 's|^lib/x86_64-linux-gnu/|lib/|' -e 's|[.]gz$||'"
    ));
    assert_eq!(package, tarball);
    for program in ["eremothyn", "crontab_firings"] {
        let read = |path: String| fs::read(root().join("target").join(path)).expect("a program");
        let one = read(format!(
            "dist/eremothyn-{version}-x86_64-linux/bin/{program}"
        ));
        assert!(one == read(format!("deb/usr/bin/{program}")), "{program}");
    }
    assert!(tarball.len() > 60, "{tarball:?}");
}
