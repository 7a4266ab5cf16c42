//! The program: killed while it tells its story, it goes on from its files; and it passes its own kills.

use std::io::{BufRead, BufReader};
use std::path::{Path, PathBuf};
use std::process::{Command, Stdio};

fn host(folder: &Path) -> Command {
    let mut host = Command::new(env!("CARGO_BIN_EXE_host"));
    host.arg(folder).arg("60");
    host
}

/// A place for a folder that is not there yet.
fn place(name: &str) -> PathBuf {
    std::env::temp_dir().join(format!("pumxaqert-lives-{}-{name}", std::process::id()))
}

/// Killed after so many lines of its story.
fn cut_short(folder: &Path, lines: usize) {
    let mut child = host(folder).stdout(Stdio::piped()).spawn().unwrap();
    let told = BufReader::new(child.stdout.take().unwrap()).lines().take(lines);
    assert_eq!(told.count(), lines);
    child.kill().unwrap();
    child.wait().unwrap();
}

#[test]
fn goes_on_from_the_files_of_an_earlier_life() {
    for lines in [2, 7, 15, 23] {
        let folder = place(&lines.to_string());
        cut_short(&folder, lines);
        let answer = host(&folder).output().unwrap();
        let story = String::from_utf8(answer.stdout).unwrap();
        assert!(answer.status.success(), "{story}");
        assert!(story.contains("\nan earlier life took edits ["), "{story}");
        assert!(!story.contains("took edits []"), "{story}");
        assert_eq!(story.lines().last(), Some("all copies agree"));
        std::fs::remove_dir_all(folder).unwrap();
    }
}

#[test]
fn takes_nothing_back() {
    let folder = place("kills");
    let mut host = Command::new(env!("CARGO_BIN_EXE_host"));
    let answer = host.arg("kill").arg(&folder).arg("5").output().unwrap();
    assert!(answer.status.success(), "{answer:?}");
    std::fs::remove_dir_all(folder).unwrap();
}

#[test]
fn words_that_say_nothing() {
    let mut host = Command::new(env!("CARGO_BIN_EXE_host"));
    let answer = host.args(["kill", "folder", "often"]).output().unwrap();
    assert_eq!(answer.status.code(), Some(2));
}
