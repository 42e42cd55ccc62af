//! The program `link` with houses that are not real: what it prints but for the times, and how it exits.
use std::fs::{create_dir, metadata, remove_dir_all};
use std::io::Write;
use std::path::{Path, PathBuf};
use std::process::{Command, Output, Stdio, id};

const FAKE: &str = env!("CARGO_BIN_EXE_fake-house");

fn link(words: &[&str], script: &str) -> Output {
    let mut link = Command::new(env!("CARGO_BIN_EXE_link"))
        .args(words)
        .stdin(Stdio::piped())
        .stdout(Stdio::piped())
        .stderr(Stdio::piped())
        .spawn()
        .expect("link starts");
    // it has ended before it read all where it fails
    let _ = link.stdin.take().expect("it is piped").write_all(script.as_bytes());
    link.wait_with_output().expect("link ends")
}

/// What is printed but for the times, and the exit code.
fn played(words: &[&str], script: &str) -> (Vec<String>, Option<i32>) {
    let output = link(&[&[FAKE, "--tick", "2"], words].concat(), script);
    let printed = String::from_utf8(output.stdout).expect("text");
    let untimed = |line: &str| line.split_once(", after ").map_or(line, |(front, _)| front).to_string();
    (printed.lines().map(untimed).collect(), output.status.code())
}

/// Plays a script, and compares what is printed.
fn plays(script: &str, printed: &str, code: i32) {
    let (lines, exit) = played(&[], script);
    assert_eq!(lines, printed.lines().collect::<Vec<_>>());
    assert_eq!(exit, Some(code));
}

#[test]
fn calls_at_three_houses() {
    plays(
        "say  A volume.\nat 0 make 100\nwait\nat 1 attach 1\nwait\n\nat 1 write 1 1 5 07\nwait\nat 2 read 1 1 5\nwait\nat 0 read 1 1 6\nwait\nat 2 read 1 9 5\nwait\nat 1 sync 1 1\nwait\nat 2 picture 1 1\nwait\nat 0 drop 1 1\nwait",
        "A volume.
call 1 at 0: make 100
call 1: number 1
call 2 at 1: attach 1
call 2: token 1 size 100
call 3 at 1: write 1 1 5 07
call 3: yes
call 4 at 2: read 1 1 5
call 4: sector 07
call 5 at 0: read 1 1 6
call 5: sector 00
call 6 at 2: read 1 9 5
call 6: refused 4
call 7 at 1: sync 1 1
call 7: yes
call 8 at 2: picture 1 1
call 8: refused 12
call 9 at 0: drop 1 1
call 9: yes",
        0,
    );
}

#[test]
fn a_house_is_killed_and_started() {
    plays(
        "at 0 make 100\nwait\nat 1 make 1000002\nkill 1\nkill 1\nat 1 attach 1\nwait\nat 2 attach 1\nwait\nstart 1\nstart 1\nat 1 read 1 1 5\nwait",
        "call 1 at 0: make 100
call 1: number 1
call 2 at 1: make 1000002
house 1 is killed
call 2: gone with house 1
house 1 is down already
call 3 at 1: attach 1
call 3: house 1 is down
call 4 at 2: attach 1
call 4: token 1 size 100
house 1 is started
house 1 is up already
call 5 at 1: read 1 1 5
call 5: sector 00",
        0,
    );
}

#[test]
fn packets_to_a_house_that_is_down_are_lost() {
    plays(
        "kill 0\nat 1 make 100\npause 20\nstart 0\nwait",
        "house 0 is killed
call 1 at 1: make 100
house 0 is started
call 1: number 1",
        0,
    );
}

#[test]
fn a_house_that_exits_is_reported() {
    plays(
        "at 1 make 1000001\nwait\nat 2 make 100\nwait\nstart 1\nat 1 attach 1\nwait",
        "call 1 at 1: make 1000001
house 1 complains: I am not well
house 1 exited by itself, exit status: 7
call 1: gone with house 1
call 2 at 2: make 100
call 2: number 1
house 1 is started
call 3 at 1: attach 1
call 3: token 1 size 100",
        0,
    );
}

#[test]
fn a_house_that_reads_nothing_holds_nobody_up() {
    let many = "at 2 write 1 1 5 07\n".repeat(200);
    let script = format!("at 2 make 1000003\n{many}at 1 make 100\npause 50\nkill 2\nwait\nstart 2\nat 2 attach 1\nwait");
    let (lines, code) = played(&[], &script);
    assert_eq!(lines.iter().filter(|line| line.ends_with(": gone with house 2")).count(), 201);
    assert!(lines.contains(&"call 202: number 1".to_string()));
    assert_eq!(lines.last().map(String::as_str), Some("call 203: token 1 size 100"));
    assert_eq!(code, Some(0));
}

#[test]
fn a_house_that_prints_without_end_holds_nobody_up() {
    let (lines, code) = played(&[], "at 2 make 1000005\npause 20\nat 1 make 100\npause 20\nkill 2\nwait\nstart 2\nat 2 attach 1\nwait");
    for line in ["call 1: gone with house 2", "call 2: number 1", "call 3: token 1 size 100"] {
        assert!(lines.contains(&line.to_string()), "{line}");
    }
    assert_eq!(code, Some(0));
}

#[test]
fn a_wait_that_fails_ends_the_script() {
    plays(
        "at 1 make 1000002\nwait 20\nat 2 make 100",
        "call 1 at 1: make 1000002
waited for 20.0 ms, no longer
call 1 at 1 is not answered",
        1,
    );
}

#[test]
fn nobody_has_to_wait() {
    plays("at 1 make 1000002", "call 1 at 1: make 1000002\ncall 1 at 1 is not answered", 0);
}

#[test]
fn lines_that_are_none() {
    plays(
        "at 1 make\nkill 3\nat 1 make 1000004\nwait",
        "line 1: not understood
line 2: no such house
call 1 at 1: make 1000004
house 1 prints what is none of its lines: how do you do
house 1 answers 1, which does not wait there
call 1: number 1",
        1,
    );
}

/// A folder that is removed at the end.
struct Folder(PathBuf);

impl Folder {
    fn new(name: &str) -> Folder {
        let path = std::env::temp_dir().join(format!("carrier-{name}-{}", id()));
        create_dir(&path).expect("a folder can be made");
        Folder(path)
    }

    fn path(&self) -> &Path {
        &self.0
    }
}

impl Drop for Folder {
    fn drop(&mut self) {
        let _ = remove_dir_all(&self.0);
    }
}

#[test]
fn devices_stay_in_a_folder_that_is_given() {
    let folder = Folder::new("devices");
    let words = |sectors: &'static str| ["--folder", folder.path().to_str().expect("text"), "--houses", "4", "--sectors", sectors];
    for sectors in ["1000", "2000"] {
        assert_eq!(played(&words(sectors), "at 3 make 5\nwait").1, Some(0));
    }
    for house in 0..4 {
        let device = folder.path().join(format!("house-{house}/device"));
        assert_eq!(metadata(device).expect("a device").len(), 512_000, "house {house}");
    }
}

#[test]
fn what_does_not_start() {
    for words in [&[][..], &["/no/such/house"], &[FAKE, "--houses", "2"]] {
        let output = link(words, "");
        assert_eq!(output.status.code(), Some(2), "{words:?}");
        assert!(output.stdout.is_empty() && !output.stderr.is_empty(), "{words:?}");
    }
}
