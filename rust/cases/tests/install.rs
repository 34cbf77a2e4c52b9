//! The Makefile at the top: what `make install` puts where, and a program that is built against it through pkg-config.

use std::fs;
use std::os::unix::fs::PermissionsExt;
use std::path::{Path, PathBuf};
use std::process::{Command, Output};
use std::sync::Mutex;

use cases::{path, stored};

const PREFIX: &str = "/opt/lantern";

fn run(command: &mut Command) -> Output {
    let output = command
        .output()
        .unwrap_or_else(|why| panic!("{command:?}: {why}"));
    assert!(output.status.success(), "{command:?}: {output:?}");
    output
}

fn text(bytes: Vec<u8>) -> String {
    String::from_utf8(bytes).unwrap()
}

/// A folder that is empty.
fn empty(name: &str) -> PathBuf {
    let folder = Path::new(env!("CARGO_TARGET_TMPDIR")).join(format!("install-{name}"));
    let _ = fs::remove_dir_all(&folder);
    fs::create_dir_all(&folder).unwrap();
    folder
}

/// Runs make at the top, once at a time, since it may build.
fn make(words: &[&str]) -> Output {
    static BUILDING: Mutex<()> = Mutex::new(());
    let _building = BUILDING.lock();
    run(Command::new("make").arg("-C").arg(path("")).args(words))
}

/// Every file below a folder, with its mode.
fn files(folder: &Path) -> Vec<(String, u32)> {
    let mut found = Vec::new();
    let mut folders = vec![folder.to_path_buf()];
    while let Some(next) = folders.pop() {
        for entry in fs::read_dir(next).unwrap() {
            let entry = entry.unwrap();
            if entry.file_type().unwrap().is_dir() {
                folders.push(entry.path());
                continue;
            }
            let name = entry
                .path()
                .strip_prefix(folder)
                .unwrap()
                .to_str()
                .unwrap()
                .to_owned();
            found.push((
                name,
                entry.metadata().unwrap().permissions().mode() & 0o7777,
            ));
        }
    }
    found.sort();
    found
}

/// The words that a compiler needs: by pkg-config, or by a few lines of our own that put its variables in.
fn flags(root: &Path) -> Vec<String> {
    let folder = root.join(format!("{}/lib/pkgconfig", &PREFIX[1..]));
    let answer = Command::new("pkg-config")
        .args(["--cflags", "--libs", "grainlantern"])
        .env("PKG_CONFIG_LIBDIR", &folder)
        .env("PKG_CONFIG_SYSROOT_DIR", root)
        .env_remove("PKG_CONFIG_PATH")
        .output();
    if let Ok(output) = answer {
        assert!(output.status.success(), "{output:?}");
        return text(output.stdout)
            .split_whitespace()
            .map(str::to_owned)
            .collect();
    }
    eprintln!("pkg-config is not on PATH: its file is read by the test itself");
    let file = fs::read_to_string(folder.join("grainlantern.pc")).unwrap();
    let field = |name: &str| {
        file.lines()
            .find_map(|line| line.strip_prefix(name))
            .expect(name)
    };
    let put_in = |words: &str| {
        words
            .replace(
                "${libdir}",
                &format!("{}{}", root.display(), field("libdir=")),
            )
            .replace(
                "${includedir}",
                &format!("{}{}", root.display(), field("includedir=")),
            )
    };
    [field("Cflags:"), field("Libs:")]
        .iter()
        .flat_map(|words| {
            put_in(words)
                .split_whitespace()
                .map(str::to_owned)
                .collect::<Vec<_>>()
        })
        .collect()
}

#[test]
fn what_is_installed_is_whole_and_serves() {
    let root = empty("root");
    make(&[
        "install",
        &format!("PREFIX={PREFIX}"),
        &format!("DESTDIR={}", root.display()),
    ]);
    let there = root.join(&PREFIX[1..]);
    let wanted = [
        ("bin/grainlantern", 0o755),
        ("bin/mrtgrep", 0o755),
        ("include/grainlantern.h", 0o644),
        ("lib/libgrainlantern_c.a", 0o644),
        ("lib/pkgconfig/grainlantern.pc", 0o644),
        ("share/man/man1/grainlantern.1", 0o644),
        ("share/man/man1/mrtgrep.1", 0o644),
    ]
    .map(|(name, mode)| (format!("{}/{name}", &PREFIX[1..]), mode));
    // nothing else, in the prefix or beside it
    assert_eq!(files(&root), wanted);

    // the folder that was written to stands in no file
    let pc = fs::read_to_string(there.join("lib/pkgconfig/grainlantern.pc")).unwrap();
    assert!(pc.starts_with(&format!("prefix={PREFIX}\n")), "{pc}");
    assert!(!pc.contains('@') && !pc.contains("install-root"), "{pc}");
    assert!(
        pc.contains(&format!("\nVersion: {}\n", env!("CARGO_PKG_VERSION"))),
        "{pc}"
    );

    // the example in C, against what is installed alone
    let filter = empty("example").join("filter");
    run(Command::new("gcc")
        .args(["-std=c99", "-Wall", "-Wextra", "-Werror", "-pedantic", "-o"])
        .arg(&filter)
        .arg(path("examples/c/filter.c"))
        .args(flags(&root)));
    let updates = path("examples/updates.mrt");
    let loops = path("examples/loops.filter");
    let output = run(Command::new(&filter).arg(&loops).arg(&updates));
    assert_eq!(output.stdout, stored("examples/loops.lines"));

    // and the programs themselves, not the commands that build them
    let output = run(Command::new(there.join("bin/mrtgrep"))
        .arg("-f")
        .arg(&loops)
        .arg(&updates));
    assert_eq!(output.stdout, stored("examples/loops.lines"));
    let input = fs::File::open(&updates).unwrap();
    let output = run(Command::new(there.join("bin/grainlantern"))
        .arg(&loops)
        .stdin(input));
    assert_eq!(output.stdout, stored("examples/loops.lines"));
    for name in ["bin/mrtgrep", "bin/grainlantern"] {
        assert!(
            fs::read(there.join(name)).unwrap().starts_with(b"\x7fELF"),
            "{name}"
        );
    }
}

#[test]
fn check_is_the_gate() {
    let commands = text(make(&["-n", "check"]).stdout);
    assert!(
        commands.lines().any(|line| line.trim() == ".ci/run"),
        "{commands}"
    );
}

#[test]
fn what_is_missing_or_old_is_built() {
    for (variable, command) in [
        ("PROGRAM", "cd crates/grainlantern && rt run"),
        ("ARCHIVE", "cd crates/grainlantern_c && rt lib"),
        ("MRTGREP", "cargo build"),
    ] {
        let commands = text(make(&["-n", &format!("{variable}=no-such-file")]).stdout);
        assert!(commands.contains(command), "{variable}: {commands}");
    }
    let commands = text(make(&["-n", "-W", "crates.txt"]).stdout);
    for command in [
        "cd crates/grainlantern && rt run",
        "cd crates/grainlantern_c && rt lib",
        "cargo build",
    ] {
        assert!(commands.contains(command), "{commands}");
    }
    // a change of mrtgrep alone proves nothing again
    make(&["all"]);
    let commands = text(make(&["-n", "-W", "rust/mrtgrep/Cargo.toml"]).stdout);
    assert!(
        commands.contains("cargo build") && !commands.contains("rt "),
        "{commands}"
    );
}
