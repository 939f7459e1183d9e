//! The script `mapsforge` at the top of the repository: it builds what is missing, and decides by content, not by times. It is tried
//! in a small tree of its own, with stand-ins for `rt` and `cargo` that note each call.

mod common;

use common::repository;
use std::fs;
use std::io::Write;
use std::path::{Path, PathBuf};
use std::process::{Command, Output, Stdio};
use std::time::{Duration, SystemTime};

struct Tree {
    top: PathBuf,
}

/// Writes a program, by a process of its own. The system refuses to run a file that somebody has open for writing ("Text file
/// busy"). If this process opened it, each program that another thread starts meanwhile would have it open too, for a moment.
fn program(path: &Path, text: &str) {
    let mut writer = Command::new("/bin/sh")
        .args(["-c", "cat >\"$1\" && chmod 755 \"$1\"", "sh"])
        .arg(path)
        .stdin(Stdio::piped())
        .spawn()
        .expect("there is a shell");
    writer.stdin.take().expect("it is piped").write_all(text.as_bytes()).expect("it is read");
    assert!(writer.wait().expect("it ends").success(), "the tests' folder can be written to");
}

impl Drop for Tree {
    fn drop(&mut self) {
        let _ = fs::remove_dir_all(&self.top);
    }
}

impl Tree {
    fn new(name: &str) -> Tree {
        // Two runs of the tests may be under way at once.
        let own = format!("{name}-{}", std::process::id());
        let top = Path::new(env!("CARGO_TARGET_TMPDIR")).join(own);
        let _ = fs::remove_dir_all(&top);
        for folder in
            ["bin", "host/src", "crates/exports/src", "crates/exports_c/src", "crates/visit/proofs"]
        {
            fs::create_dir_all(top.join(folder)).unwrap();
        }
        for file in ["mapsforge", "host/library", "host/inputs"] {
            program(&top.join(file), &fs::read_to_string(repository(file)).unwrap());
        }
        for (file, text) in [
            ("crates.txt", "visit:\nexports: visit\nexports_c staticlib: exports\n"),
            ("crates/exports/src/lib.rt", "fn one"),
            ("crates/exports_c/src/lib.rt", "extern fn one"),
            ("crates/visit/proofs/One.antt", "a proof"),
            ("host/src/lib.rs", "pub fn one() {}"),
            ("host/Cargo.toml", "[package]"),
            ("host/Cargo.lock", ""),
            ("host/build.rs", "fn main() {}"),
        ] {
            fs::write(top.join(file), text).unwrap();
        }
        // What is built is the content of what it is built from.
        program(&top.join("bin/rt"),
            "#!/bin/sh\necho \"${PWD##*/}: rt $*\" >>\"${0%/*}/../calls\"\ncase \"${PWD##*/} $*\" in \"exports_c lib\")\n\
             mkdir -p out && cat ../exports/src/lib.rt src/lib.rt >out/libexports_c.a;;\n\
             *\\ doc) echo \"${0%/*}/kit/START-HERE.md\";;\n\
             esac\n",
        );
        program(&top.join("bin/cargo"),
            "#!/bin/sh\nmkdir -p \"$CARGO_TARGET_DIR/release\"\n\
             echo \"cargo $MAPSFORGE_INPUTS\" >>\"$CARGO_TARGET_DIR/../../calls\"\n\
             printf '#!/bin/sh\\necho built, \"$@\"\\nexit 7\\n' >\"$CARGO_TARGET_DIR/release/mapsforge\"\n\
             chmod +x \"$CARGO_TARGET_DIR/release/mapsforge\"\n",
        );
        Tree { top }
    }

    fn run(&self, library: Option<&str>) -> Output {
        let path = format!("{}:/usr/bin:/bin", self.top.join("bin").display());
        let mut command = Command::new(self.top.join("mapsforge"));
        command.args(["check", "a b"]).env_clear().env("PATH", path).current_dir(&self.top);
        if let Some(folder) = library {
            command.env("MAPSFORGE_LIB", folder);
        }
        command.output().expect("the script runs")
    }

    /// Runs the script, and gives what it called: `rt` for the library, `cargo` for the command.
    fn calls(&self) -> Vec<&'static str> {
        let output = self.run(None);
        assert_eq!(String::from_utf8_lossy(&output.stdout), "built, check a b\n");
        assert_eq!(output.status.code(), Some(7), "the status is the command's");
        self.called()
    }

    fn called(&self) -> Vec<&'static str> {
        let calls = fs::read_to_string(self.top.join("calls")).unwrap_or_default();
        let _ = fs::remove_file(self.top.join("calls"));
        let mut called = Vec::new();
        for line in calls.lines() {
            if line == "exports_c: rt lib" {
                called.push("library");
            } else if line.starts_with("rattle build") {
                called.push("over what rt ci left");
            } else if line.starts_with("cargo") {
                called.push("command");
            }
        }
        called
    }

    fn touch(&self, file: &str, by: i64) {
        let time = match by {
            0.. => SystemTime::now() + Duration::from_secs(by as u64),
            _ => SystemTime::now() - Duration::from_secs(by.unsigned_abs()),
        };
        let file = fs::OpenOptions::new().write(true).open(self.top.join(file)).unwrap();
        file.set_modified(time).unwrap();
    }
}

#[test]
fn the_script_decides_by_content() {
    let tree = Tree::new("script");
    assert_eq!(tree.calls(), ["library", "command"]);
    assert_eq!(tree.calls(), [""; 0]);

    // Touched, in both directions: nothing is built.
    let files = ["crates/exports/src/lib.rt", "crates.txt", "host/src/lib.rs", "host/Cargo.toml"];
    for by in [3600, -3600 * 24 * 365] {
        files.iter().for_each(|file| tree.touch(file, by));
        tree.touch("target/staticlib/libmapsforge.a", by);
        assert_eq!(tree.calls(), [""; 0], "{by}");
    }

    // Changed, with an old time: built. Unchanged again before the next run: not.
    let source = tree.top.join("crates/exports/src/lib.rt");
    fs::write(&source, "fn two").unwrap();
    fs::write(&source, "fn one").unwrap();
    assert_eq!(tree.calls(), [""; 0]);
    fs::write(&source, "fn two").unwrap();
    tree.touch("crates/exports/src/lib.rt", -3600 * 24 * 365);
    assert_eq!(tree.calls(), ["library", "command"]);
    assert_eq!(tree.calls(), [""; 0]);

    // A proof is part of the library; so is a file that is new, or gone.
    fs::write(tree.top.join("crates/visit/proofs/Two.antt"), "another").unwrap();
    assert_eq!(tree.calls(), ["library"]);
    fs::remove_file(tree.top.join("crates/visit/proofs/Two.antt")).unwrap();
    assert_eq!(tree.calls(), ["library"]);

    // The command alone.
    fs::write(tree.top.join("host/src/lib.rs"), "pub fn two() {}").unwrap();
    tree.touch("host/src/lib.rs", -3600 * 24 * 365);
    assert_eq!(tree.calls(), ["command"]);
    // One that somebody else put there.
    program(&tree.top.join("target/host/release/mapsforge"), "#!/bin/sh\necho other\n");
    assert_eq!(tree.calls(), ["command"]);
    // A library that somebody else put there.
    fs::write(tree.top.join("target/staticlib/libmapsforge.a"), "other").unwrap();
    assert_eq!(tree.calls(), ["library"]);
    assert_eq!(tree.calls(), [""; 0]);
}

/// The gate builds the library over the crates that `rt ci` left proved, and by `rt lib` where they cannot be used.
#[test]
fn the_gate_builds_over_what_it_proved() {
    let tree = Tree::new("script-gate");
    fs::create_dir_all(tree.top.join("bin/kit/bin")).unwrap();
    program(&tree.top.join("bin/kit/bin/rattle"),
        "#!/bin/sh\necho \"rattle $*\" >>\"${0%/*}/../../../calls\"\nout=${PWD%/*}/exports/out/rlib\n\
         case \" $* \" in *\" --extern exports=$out/exports.rlib -L dependency=$out \"*) cat \"$out/exports.rlib\" >out/libexports_c.a;;\n\
         *) false;; esac\n",
    );
    let library = tree.top.join("target/staticlib/libmapsforge.a");
    let build = || {
        let path = format!("{}:/usr/bin:/bin", tree.top.join("bin").display());
        let mut command = Command::new(tree.top.join("host/library"));
        let output =
            command.arg("--of-ci").env_clear().env("PATH", path).output().expect("it runs");
        assert!(output.status.success(), "{}", String::from_utf8_lossy(&output.stderr));
        (tree.called(), fs::read_to_string(&library).unwrap())
    };
    let (called, built) = build();
    assert_eq!(
        (called, built.as_str()),
        (vec!["over what rt ci left", "library"], "fn oneextern fn one")
    );

    fs::create_dir_all(tree.top.join("crates/exports/out/rlib")).unwrap();
    fs::write(tree.top.join("crates/exports/out/rlib/exports.rlib"), "proved").unwrap();
    let (called, built) = build();
    assert_eq!((called, built.as_str()), (vec!["over what rt ci left"], "proved"));
    // It is noted as the library of these sources.
    assert_eq!(tree.calls(), ["command"]);
}

#[test]
fn a_named_library_is_taken_as_it_is() {
    let tree = Tree::new("script-named");
    fs::create_dir_all(tree.top.join("lib")).unwrap();
    fs::write(tree.top.join("lib/libmapsforge.a"), "a library").unwrap();
    assert_eq!(tree.run(Some("lib")).status.code(), Some(7));
    assert_eq!(tree.called(), ["command"]);
    assert_eq!(tree.run(Some("lib")).status.code(), Some(7));
    assert_eq!(tree.called(), [""; 0]);
    fs::write(tree.top.join("lib/libmapsforge.a"), "another").unwrap();
    assert_eq!(tree.run(Some("lib")).status.code(), Some(7));
    assert_eq!(tree.called(), ["command"]);
}

/// Without the tools a sentence says what is missing, and the status is 2; a failed build is told.
#[test]
fn what_is_missing_is_told() {
    let tree = Tree::new("script-missing");
    program(&tree.top.join("bin/rt"), "#!/bin/sh\necho no proof >&2\nexit 1\n");
    let output = tree.run(None);
    assert_eq!(output.status.code(), Some(2));
    let told = String::from_utf8_lossy(&output.stderr).into_owned();
    assert!(told.contains("no proof") && told.contains("the library was not built"), "{told}");
    // A folder without the library, and none at all.
    fs::create_dir_all(tree.top.join("lib")).unwrap();
    for folder in ["lib", "no such folder"] {
        let output = tree.run(Some(folder));
        assert_eq!(output.status.code(), Some(2));
        let told = String::from_utf8_lossy(&output.stderr).into_owned();
        assert!(told.contains("there is no libmapsforge.a in it"), "{told}");
    }
    // A command that cannot be built.
    fs::write(tree.top.join("lib/libmapsforge.a"), "a library").unwrap();
    program(&tree.top.join("bin/cargo"), "#!/bin/sh\necho no such type >&2\nexit 101\n");
    let output = tree.run(Some("lib"));
    assert_eq!(output.status.code(), Some(2));
    let told = String::from_utf8_lossy(&output.stderr).into_owned();
    assert!(told.contains("no such type") && told.contains("the command was not built"), "{told}");
    fs::remove_file(tree.top.join("bin/rt")).unwrap();
    let output = tree.run(None);
    let told = String::from_utf8_lossy(&output.stderr).into_owned();
    if output.status.code() == Some(2) && told.contains("there is no rt") {
        return;
    }
    common::skipped("what_is_missing_is_told", "rt is among the system's own programs");
}
