//! The commands `bin/grainlantern` and `bin/mrtgrep`, which build their program when they have to. Where the toolchain doesn't matter a script stands
//! for `rt`, and another for `cargo`.

use std::fs::{self, File};
use std::io::Write;
use std::os::unix::fs::{symlink, PermissionsExt};
use std::path::{Path, PathBuf};
use std::process::{Command, Output};
use std::sync::Mutex;
use std::time::{Duration, SystemTime};

use cases::{fed, path, stored};

/// A command under `bin/`.
#[derive(Clone, Copy)]
struct Script {
    name: &'static str,
    /// The crate that it has proved and built, and by which verb of `rt`.
    proved: &'static str,
    verb: &'static str,
    /// The program that it has built.
    program: &'static str,
    /// Its exit status where nothing can be built.
    wrong: i32,
    /// Sources, each of which makes it build again.
    sources: &'static [&'static str],
}

const SCRIPTS: [Script; 2] = [
    Script {
        name: "grainlantern",
        proved: "grainlantern",
        verb: "run",
        program: "crates/grainlantern/out/grainlantern",
        wrong: 1,
        sources: &["crates.txt", "crates/one/src/source"],
    },
    Script {
        name: "mrtgrep",
        proved: "grainlantern_c",
        verb: "lib",
        program: "rust/target/release/mrtgrep",
        wrong: 2,
        sources: &[
            "crates.txt",
            "crates/one/src/source",
            "rust/Cargo.toml",
            "rust/grainlantern/src/source",
            "rust/mrtgrep/Cargo.toml",
            "rust/mrtgrep/src/source",
        ],
    },
];

impl Script {
    /// A script that notes the call, says what it is given, and builds a program that tells its argument and its input.
    fn tool(&self, says: &str) -> String {
        let folder = Path::new(self.program).parent().unwrap().display();
        format!(
            "#!/bin/sh
cd \"${{0%/*}}/..\"
echo \"${{0##*/}} $1\" >>calls
cat
echo '{says}'
mkdir -p {folder}
printf '#!/bin/sh\\nprintf \"%%s \" \"$1\"\\ncat\\n' >{program}
chmod +x {program}
",
            program = self.program
        )
    }

    /// A repository of few sources, with the command, beside a folder `path` for the search path.
    fn repository(&self, name: &str, tools: &[(&str, String)]) -> PathBuf {
        let root = Path::new(env!("CARGO_TARGET_TMPDIR")).join(format!("{}-{name}", self.name));
        let _ = fs::remove_dir_all(&root);
        let write = |file: &str, bytes: &[u8]| {
            let file = root.join(file);
            fs::create_dir_all(file.parent().unwrap()).unwrap();
            fs::write(file, bytes).unwrap();
        };
        for file in [&*format!("bin/{}", self.name), "tools/building.sh"] {
            write(file, &stored(file));
        }
        // not named as sources of Rattle, which the gate would count as some that nothing proves
        for source in self.sources {
            write(source, b"");
        }
        let kind = if self.verb == "lib" { " staticlib" } else { "" };
        let crates = format!("one:\ntwo: one\nother: one\n{}{kind}: two\n", self.proved);
        write("crates.txt", crates.as_bytes());
        fs::create_dir_all(root.join("crates").join(self.proved)).unwrap();
        for tool in [
            "sh", "awk", "cat", "chmod", "dirname", "find", "head", "mkdir", "mv", "readlink",
            "tail", "uname",
        ] {
            fs::create_dir_all(root.join("path")).unwrap();
            symlink(found(tool), root.join("path").join(tool)).unwrap();
        }
        for (tool, script) in tools {
            write(&format!("path/{tool}"), script.as_bytes());
        }
        for file in tools
            .iter()
            .map(|(tool, _)| format!("path/{tool}"))
            .chain([format!("bin/{}", self.name)])
        {
            fs::set_permissions(root.join(file), fs::Permissions::from_mode(0o755)).unwrap();
        }
        root
    }

    /// The same, with tools that build.
    fn ready(&self, name: &str) -> PathBuf {
        self.repository(
            name,
            &[
                ("rt", self.tool("proving")),
                ("cargo", self.tool("compiling")),
            ],
        )
    }

    /// Runs a repository's command in another folder, with an input.
    fn run(&self, root: &Path) -> Output {
        let mut command = Command::new(root.join("bin").join(self.name));
        command
            .arg("some.filter")
            .current_dir("/")
            .env("PATH", root.join("path"));
        fed(&mut command, |mut stdin| {
            let _ = stdin.write_all(b"records");
        })
    }
}

/// Where a tool stands on the search path.
fn found(tool: &str) -> PathBuf {
    let folders = std::env::var_os("PATH").unwrap();
    std::env::split_paths(&folders)
        .map(|folder| folder.join(tool))
        .find(|file| file.exists())
        .unwrap_or_else(|| panic!("no {tool} on PATH"))
}

fn said(output: &Output) -> String {
    String::from_utf8_lossy(&output.stderr).into_owned()
}

#[test]
fn they_are_built_once_and_again_after_a_change() {
    for script in SCRIPTS {
        let root = script.ready("built");
        let builds = || {
            let calls = fs::read_to_string(root.join("calls")).unwrap();
            let build = format!("rt {}", script.verb);
            calls.lines().filter(|call| *call == build).count()
        };

        let first = script.run(&root);
        assert_eq!(first.stdout, b"some.filter records", "{first:?}");
        assert!(said(&first).contains("building the program"), "{first:?}");
        assert_eq!(builds(), 1);

        let second = script.run(&root);
        assert_eq!(second.stdout, b"some.filter records", "{second:?}");
        assert_eq!(said(&second), "");
        assert_eq!(builds(), 1);

        for (count, source) in script.sources.iter().enumerate() {
            // as if the build were of yesterday, and this source alone of today
            let yesterday = SystemTime::now() - Duration::from_secs(86400);
            let dated = |file: &str, time| {
                File::open(root.join(file))
                    .unwrap()
                    .set_modified(time)
                    .unwrap()
            };
            for other in script.sources {
                dated(other, yesterday - Duration::from_secs(1));
            }
            for folder in [
                "crates",
                "crates/one",
                "crates/one/src",
                "rust/grainlantern",
                "rust/grainlantern/src",
                "rust/mrtgrep/src",
            ] {
                if root.join(folder).exists() {
                    dated(folder, yesterday - Duration::from_secs(1));
                }
            }
            dated(&format!("target/{}.stamp", script.name), yesterday);
            assert_eq!(said(&script.run(&root)), "", "nothing changed");
            dated(source, SystemTime::now());
            assert_eq!(script.run(&root).stdout, b"some.filter records");
            assert_eq!(builds(), count + 2, "{source}");
            assert_eq!(said(&script.run(&root)), "");
            assert_eq!(builds(), count + 2, "{source}");
        }
    }
}

#[test]
fn what_is_run_is_told() {
    for script in SCRIPTS {
        let root = script.ready("calls");
        script.run(&root);
        let calls = fs::read_to_string(root.join("calls")).unwrap();
        let wanted = match script.name {
            "mrtgrep" => "rt lib\ncargo build\n",
            _ => "rt run\n",
        };
        assert_eq!(calls, wanted);
        let log = fs::read_to_string(root.join(format!("target/{}.log", script.name))).unwrap();
        assert!(log.contains("proving"), "{log}");
        assert_eq!(log.contains("compiling"), script.name == "mrtgrep", "{log}");
    }
}

#[test]
fn the_crates_that_are_proved_are_told() {
    for script in SCRIPTS {
        let proved = script.proved;
        let says = format!(
            "crate one: modules loaded=12 checked=0
logic=proved functions=1
crate two: modules loaded=3 checked=40
crate {proved}: modules loaded=3 checked=9
logic=proved functions=3"
        );
        let root = script.repository(
            "told",
            &[("rt", script.tool(&says)), ("cargo", script.tool(""))],
        );
        let output = script.run(&root);
        assert_eq!(output.stdout, b"some.filter records", "{output:?}");
        let name = script.name;
        let lines: Vec<String> = said(&output).lines().skip(1).map(str::to_owned).collect();
        // three of the four: nothing needs `other`
        let wanted = [
            format!("{name}: checked two, of 3 crates at most"),
            format!("{name}: checked {proved}, of 3 crates at most"),
        ];
        assert_eq!(lines, wanted);
    }
}

#[test]
fn a_failed_build_runs_nothing() {
    for script in SCRIPTS {
        let good = script.tool("proving");
        let bad = format!("{good}echo one NOT PROVED\nexit 1\n");
        let mut failing = vec![[("rt", bad.clone()), ("cargo", good.clone())]];
        if script.name == "mrtgrep" {
            failing.push([("rt", good), ("cargo", bad)]);
        }
        for tools in failing {
            let root = script.repository("failed", &tools);
            for _ in 0..2 {
                let output = script.run(&root);
                assert_eq!(output.status.code(), Some(script.wrong), "{output:?}");
                assert_eq!(output.stdout, b"");
                assert!(said(&output).contains("one NOT PROVED"), "{output:?}");
                assert!(said(&output).contains("the build failed"), "{output:?}");
            }
        }
    }
}

#[test]
fn a_missing_toolchain_is_named() {
    for script in SCRIPTS {
        let output = script.run(&script.repository("missing", &[]));
        assert_eq!(output.status.code(), Some(script.wrong), "{output:?}");
        assert_eq!(output.stdout, b"");
        assert!(said(&output).contains("'rt' is not on PATH"), "{output:?}");
    }
    let [_, mrtgrep] = SCRIPTS;
    let output = mrtgrep.run(&mrtgrep.repository("no-cargo", &[("rt", mrtgrep.tool("proving"))]));
    assert_eq!(output.status.code(), Some(2), "{output:?}");
    assert!(
        said(&output).contains("'cargo' is not on PATH"),
        "{output:?}"
    );
}

/// `rt` runs once at a time in the repository.
static BUILDING: Mutex<()> = Mutex::new(());

#[test]
fn a_filter_is_named_from_where_one_stands() {
    let _building = BUILDING.lock().unwrap();
    let mut command = Command::new(path("bin/grainlantern"));
    command.arg("bogons.filter").current_dir(path("examples"));
    let output = fed(&mut command, |mut stdin| {
        stdin.write_all(&stored("examples/updates.mrt")).unwrap();
    });
    assert!(output.status.success(), "{output:?}");
    assert_eq!(output.stdout, stored("examples/bogons.lines"));
}

#[test]
fn files_are_named_from_where_one_stands() {
    let _building = BUILDING.lock().unwrap();
    let output = Command::new(path("bin/mrtgrep"))
        .args(["-f", "bogons.filter", "updates.mrt"])
        .current_dir(path("examples"))
        .output()
        .unwrap();
    assert!(output.status.success(), "{output:?}");
    assert_eq!(output.stdout, stored("examples/bogons.lines"));
}
