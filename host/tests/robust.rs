//! What is no map, has no end, must not be overwritten, or is not listened to: a clear sentence and the right status, never a
//! hang.

mod common;

use common::{command, limited, map_bytes, map_path, shipped, text, tool, written};
use std::fs;
use std::io::{Read, Write};
use std::os::unix::fs::{symlink, PermissionsExt};
use std::os::unix::net::UnixListener;
use std::path::{Path, PathBuf};
use std::process::{Command, Output, Stdio};
use std::time::{Duration, Instant};

const LIMIT: Duration = Duration::from_secs(20);

/// Every command on a map.
fn commands(map: &str) -> Vec<Vec<String>> {
    let words: [&[&str]; 11] = [
        &["check", map],
        &["check", "--json", map],
        &["diff", map, map],
        &["report", map],
        &["svg", map, "2:10"],
        &["list", map],
        &["at", map, "62.2654,0.0403"],
        &["export", map, "--geojson"],
        &["info", map],
        &["tiles", map],
        &["show", map, "2:10"],
    ];
    words.iter().map(|words| words.iter().map(|word| word.to_string()).collect()).collect()
}

fn run(words: &[String]) -> Output {
    limited(command().args(words), LIMIT)
}

/// What all commands say of something that is no map: the status is 2, and the sentence has this part.
fn all_refuse(map: &str, part: &str) {
    for words in commands(map) {
        let output = run(&words);
        assert_eq!(output.status.code(), Some(2), "{words:?}");
        let told = String::from_utf8(output.stderr).expect("complaints are UTF-8");
        // In the document of --json the sentence is inside.
        let told = told + &String::from_utf8(output.stdout).expect("answers are UTF-8");
        assert!(told.contains(part), "{words:?}: {told:?} does not have {part:?}");
    }
}

fn own(name: &str) -> PathBuf {
    let path = Path::new(env!("CARGO_TARGET_TMPDIR")).join("robust");
    fs::create_dir_all(&path).expect("the tests' folder can be written to");
    let path = path.join(name);
    let _ = fs::remove_file(&path);
    path
}

#[test]
fn special_files_are_no_maps() {
    let start = Instant::now();
    for device in ["/dev/zero", "/dev/random", "/dev/null", "/dev/tty"] {
        all_refuse(device, "is a device, not a file");
    }
    let socket = own("socket.map");
    let _listener = UnixListener::bind(&socket).expect("a socket can be made");
    all_refuse(&text(&socket), "is a socket, not a file");
    let linked = own("linked.map");
    symlink("/dev/zero", &linked).unwrap();
    all_refuse(&text(&linked), "is a device, not a file");
    assert!(start.elapsed() < LIMIT);
}

#[test]
fn a_named_pipe_is_not_waited_for() {
    let Some(mkfifo) = tool(&["mkfifo"], "a_named_pipe_is_not_waited_for") else { return };
    let pipe = own("pipe.map");
    assert!(Command::new(mkfifo).arg(&pipe).status().unwrap().success());
    all_refuse(&text(&pipe), "is a pipe, not a file");
}

#[test]
fn files_that_are_no_maps() {
    all_refuse(&text(&own("missing.map")), "no such file or directory");
    all_refuse(&text(&written("robust-empty.map", b"")), "it is empty");
    all_refuse(&text(&written("robust-text.map", b"Dear all,\n")), "this is not a Mapsforge map");
    let long = "A text that goes on and on. ".repeat(10_000);
    let path = text(&written("robust-long.map", long.as_bytes()));
    all_refuse(&path, "this is not a Mapsforge map");
    let front = &map_bytes("islands.map")[..30];
    all_refuse(&text(&written("robust-front.map", front)), "refused with 1: the map ends");
    // A file of a system that has no size, and one that cannot be mapped.
    all_refuse("/proc/self/status", "it is empty");
    // A name that a terminal would act on.
    let turned = own("\u{1b}[31m\u{202e}.map");
    let output = run(&["info".into(), text(&turned)]);
    let told = String::from_utf8(output.stderr).unwrap();
    assert!(told.contains("\\u{1b}[31m\\u{202e}.map") && !told.contains('\u{1b}'), "{told:?}");
}

#[test]
fn a_folder_is_no_map_but_for_check_and_report() {
    let folder = own("folder");
    let _ = fs::remove_dir_all(&folder);
    fs::create_dir_all(&folder).unwrap();
    for words in commands(&text(&folder)) {
        let output = run(&words);
        assert_eq!(output.status.code(), Some(2), "{words:?}");
        let told =
            String::from_utf8(output.stderr).unwrap() + &String::from_utf8(output.stdout).unwrap();
        let part = match words[0].as_str() {
            "check" | "report" => "no file in this folder ends in .map",
            _ => "is a folder, not a file: name a map in it",
        };
        assert!(told.contains(part), "{words:?}: {told}");
    }
}

#[test]
fn a_file_without_permission_is_told() {
    let path = own("secret.map");
    fs::copy(map_path("islands.map"), &path).unwrap();
    fs::set_permissions(&path, fs::Permissions::from_mode(0o000)).unwrap();
    let part = "permission denied: ask for the permission to read it";
    if fs::File::open(&path).is_err() {
        return all_refuse(&text(&path), part);
    }
    // Whoever may read everything asks as nobody.
    let test = "a_file_without_permission_is_told";
    let Some(setpriv) = tool(&["setpriv"], test) else { return };
    let mut nobody = Command::new(setpriv);
    nobody.args(["--reuid=65534", "--regid=65534", "--clear-groups"]);
    nobody.arg(env!("CARGO_BIN_EXE_mapsforge")).arg("check").arg(&path);
    let output = limited(&mut nobody, LIMIT);
    let told = String::from_utf8_lossy(&output.stderr).into_owned();
    if !told.starts_with("mapsforge: ") {
        return common::skipped(test, "nobody cannot start the command here");
    }
    assert!(told.contains(part), "{told}");
    assert_eq!(output.status.code(), Some(2));
}

/// Writes to a command's standard input until it is closed, and gives how much was written.
fn feed(words: &[&str], front: Vec<u8>) -> (Output, u64) {
    let mut child = command()
        .args(words)
        .stdin(Stdio::piped())
        .stdout(Stdio::piped())
        .stderr(Stdio::piped())
        .spawn()
        .expect("the command runs");
    let mut stdin = child.stdin.take().expect("it is piped");
    let feeder = std::thread::spawn(move || {
        let (block, mut sent) = (vec![0; 1 << 16], 0);
        if stdin.write_all(&front).is_err() {
            return sent;
        }
        // Without end: it is up to the command to stop.
        while stdin.write_all(&block).is_ok() {
            sent += block.len() as u64;
        }
        sent
    });
    let start = Instant::now();
    let output = child.wait_with_output().expect("it ends");
    assert!(start.elapsed() < LIMIT, "{words:?}");
    (output, feeder.join().expect("it is fed"))
}

#[test]
fn input_without_end_is_read_as_far_as_needed() {
    // It is no map: seen at once.
    let (output, sent) = feed(&["check", "-"], b"no map at all, but a long text".to_vec());
    assert_eq!(output.status.code(), Some(2));
    assert!(String::from_utf8_lossy(&output.stderr).contains("cannot open standard input"));
    assert!(sent < 1 << 20, "{sent}");
    // A map, and something behind it without end: that is a finding.
    let (output, sent) = feed(&["check", "-"], map_bytes("islands.map"));
    assert_eq!(output.status.code(), Some(1));
    let told = String::from_utf8(output.stdout).unwrap();
    assert!(told.contains("something is behind it"), "{told}");
    assert!(sent < 1 << 20, "{sent}");
    // A header that speaks of a file larger than any that is read from a pipe.
    let mut bytes = map_bytes("islands.map");
    bytes[common::FILE_SIZE..][..8].copy_from_slice(&(1u64 << 50).to_be_bytes());
    let (output, _) = feed(&["info", "-"], bytes);
    assert_eq!(output.status.code(), Some(2));
    let told = String::from_utf8(output.stderr).unwrap();
    assert!(told.contains("has more than 1073741824 bytes: save it to a file first"), "{told}");
}

#[test]
fn no_output_file_is_an_input() {
    let folder = own("outputs");
    let _ = fs::remove_dir_all(&folder);
    fs::create_dir_all(&folder).unwrap();
    let map = folder.join("a.map");
    fs::copy(map_path("islands.map"), &map).unwrap();
    let (link, hard) = (folder.join("link.svg"), folder.join("hard.svg"));
    symlink(&map, &link).unwrap();
    fs::hard_link(&map, &hard).unwrap();
    let around = folder.join("../outputs/./a.map");
    let whole = map_bytes("islands.map");
    for to in [&map, &link, &hard, &around] {
        for words in [
            vec!["svg", "2:10"],
            vec!["svg", "--at", "62.2654,0.0403"],
            vec!["svg", "2:10", "--both"],
            vec!["report"],
            vec!["export", "--geojson"],
        ] {
            let output = run(&[&words[..1], &[&text(&map)], &words[1..], &["-o", &text(to)]]
                .concat()
                .iter()
                .map(|word| word.to_string())
                .collect::<Vec<_>>());
            assert_eq!(output.status.code(), Some(2), "{words:?} {to:?}");
            let told = String::from_utf8(output.stderr).unwrap();
            assert!(told.contains("it is the map") && told.contains("name another file"), "{told}");
            assert_eq!(fs::read(&map).unwrap(), whole, "{words:?} {to:?}");
        }
    }
    // Nor is another map overwritten.
    let other = folder.join("b.map");
    fs::copy(map_path("short-size.map"), &other).unwrap();
    let words = ["svg", &text(&map), "2:10", "-o", &text(&other)].map(String::from);
    let told = String::from_utf8(run(&words).stderr).unwrap();
    assert!(told.contains("b.map: it is a map: name another file"), "{told}");
    assert_eq!(fs::read(&other).unwrap(), map_bytes("short-size.map"));
    // The map may also come in by a folder, or by standard input.
    let words = ["report", &text(&folder), "-o", &text(&map)].map(String::from);
    assert_eq!(run(&words).status.code(), Some(2));
    let output = command()
        .args(["svg", "-", "2:10", "-o", &text(&map)])
        .stdin(fs::File::open(&map).unwrap())
        .output()
        .unwrap();
    assert_eq!(output.status.code(), Some(2));
    assert_eq!(fs::read(&map).unwrap(), whole);
}

#[test]
fn output_that_cannot_be_written_is_told() {
    let folder = text(&own(""));
    let map = shipped("islands.map");
    for words in
        [vec!["svg", &map, "2:10"], vec!["report", &map], vec!["export", &map, "--geojson"]]
    {
        for (to, part) in [
            ("/dev/full", "no space left on device"),
            (folder.as_str(), "is a directory"),
            ("/no/such/folder/file", "no such file or directory"),
        ] {
            let words: Vec<String> =
                words.iter().chain(&["-o", to]).map(|word| word.to_string()).collect();
            let output = run(&words);
            assert_eq!(output.status.code(), Some(2), "{words:?}");
            let told = String::from_utf8(output.stderr).unwrap();
            assert!(told.contains(&format!("cannot write {to}: {part}")), "{words:?}: {told}");
        }
    }
}

/// With its standard output closed before it starts, a command with a verdict still gives it as its status.
#[test]
fn nobody_listening_changes_no_verdict() {
    let short = shipped("short-size.map");
    let islands = shipped("islands.map");
    let renamed = common::replaced(map_bytes("islands.map"), b"Rampe 2", b"Rampe 9");
    let renamed = text(&written("robust-renamed.map", &renamed));
    let cut = common::cut("unheard", "islands.map", 20000);
    for (words, status) in [
        (vec!["tiles", &cut], 1),
        (vec!["check", &short], 1),
        (vec!["check", "--json", &short], 1),
        (vec!["check", &islands], 0),
        (vec!["diff", &islands, &renamed], 1),
        (vec!["diff", "--json", "--same", &islands, &renamed], 1),
        (vec!["report", &short], 1),
        (vec!["svg", &short, "2:10", "--both"], 1),
        (vec!["svg", &islands, "2:10", "--must-show", "amenity=casino"], 1),
    ] {
        let mut child = command()
            .args(&words)
            .stdout(Stdio::piped())
            .stderr(Stdio::piped())
            .spawn()
            .expect("the command runs");
        drop(child.stdout.take());
        let mut told = String::new();
        child.stderr.take().expect("it is piped").read_to_string(&mut told).expect("it is UTF-8");
        assert_eq!(child.wait().expect("it ends").code(), Some(status), "{words:?}");
        assert!(!told.contains("cannot write") && !told.contains("panicked"), "{words:?}: {told}");
    }
}

#[test]
fn a_full_disk_is_told_by_every_command() {
    for words in commands(&shipped("islands.map")) {
        let full = fs::OpenOptions::new().write(true).open("/dev/full").expect("Linux has it");
        let output = command().args(&words).stdout(full).output().expect("the command runs");
        assert_eq!(output.status.code(), Some(2), "{words:?}");
        let told = String::from_utf8(output.stderr).unwrap();
        assert!(told.contains("cannot write: no space left"), "{words:?}: {told}");
    }
}

/// Whatever the bytes are, every command ends with a status that it documents.
#[test]
fn damaged_maps_are_read_without_harm() {
    let mut random = common::Random(5);
    for round in 0..12 {
        let mut bytes = map_bytes(["islands.map", "islands-debug.map"][round % 2]);
        for _ in 0..20 {
            let at = 1000 + random.next() as usize % (bytes.len() - 1000);
            bytes[at] = random.next() as u8;
        }
        let path = text(&written(&format!("robust-damaged-{round}.map"), &bytes));
        for mut words in commands(&path) {
            if words[0] == "svg" {
                words.push("--both".into());
            }
            let output = run(&words);
            let told = String::from_utf8_lossy(&output.stderr).into_owned();
            assert!(matches!(output.status.code(), Some(0..=2)), "{words:?}: {told}");
            assert!(!told.contains("panicked"), "{words:?}: {told}");
        }
    }
}
