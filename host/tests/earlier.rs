//! The program brings a table over from before there was a second key.

use pumxaqert::{Command as Edit, EntryKind, Setup, ROOM};
use std::fs;
use std::path::{Path, PathBuf};
use std::process::Command;

const SETUP: Setup = Setup { n: 3, s: 4, copy: 1 };

/// A folder with a table of before in it, which goes with the test.
struct Folder(PathBuf);

impl Folder {
    fn new(name: &str, old: &[u8]) -> Folder {
        let name = format!("pumxaqert-earlier-{}-{name}", std::process::id());
        let folder = std::env::temp_dir().join(name);
        fs::create_dir(&folder).unwrap();
        fs::write(folder.join("old"), old).unwrap();
        Folder(folder)
    }

    fn files(&self) -> usize {
        self.0.read_dir().unwrap().count()
    }

    /// Status, and what was said to whom.
    fn host(&self, words: &[&str]) -> (Option<i32>, String, String) {
        let mut host = Command::new(env!("CARGO_BIN_EXE_host"));
        let answer = host.current_dir(&self.0).arg("bring-over").args(words).output().unwrap();
        let text = |bytes| String::from_utf8(bytes).unwrap();
        (answer.status.code(), text(answer.stdout), text(answer.stderr))
    }

    /// It fails with these words, and leaves no new file.
    fn refuses(&self, words: [&str; 5], wanted: &str) {
        let files = self.files();
        let told = self.host(&words);
        assert_eq!(told, (Some(1), String::new(), format!("host: {wanted}\n")));
        assert_eq!(self.files(), files);
    }
}

impl Drop for Folder {
    fn drop(&mut self) {
        fs::remove_dir_all(&self.0).unwrap();
    }
}

/// Today's table after two requests, and the same as it was before.
fn tables() -> (Vec<u8>, Vec<u8>) {
    let mut table = vec![0; SETUP.table_len().unwrap()];
    SETUP.blank(&mut table).unwrap();
    for command in [Edit::write(7, u64::MAX - 5), Edit::read(u32::MAX, 3)] {
        SETUP.request(&mut table, &mut [0; ROOM], command).unwrap();
    }
    let mut old = table[..3].to_vec();
    for record in table[3..].chunks_exact(EntryKind::Record.entry_len() - 4) {
        let vote = |at: usize| [&record[at..at + 10], &record[at + 14..at + 36]].concat();
        old.extend([&record[..4], &vote(4), &record[40..43]].concat());
        (0..7).for_each(|q| old.extend(vote(43 + 36 * q)));
    }
    (table, old)
}

fn same(path: &Path, bytes: &[u8]) -> bool {
    fs::read(path).unwrap() == bytes
}

#[test]
fn brought_over() {
    let (table, old) = tables();
    let folder = Folder::new("brought", &old);
    let said = "2 records brought over, 10 are blank\n";
    let all_well = (Some(0), said.to_string(), String::new());
    assert_eq!(folder.host(&["old", "3", "4", "1", "new"]), all_well);
    let other = folder.0.join("other");
    assert_eq!(folder.host(&["old", "3", "4", "1", other.to_str().unwrap()]), all_well);
    assert!(same(&folder.0.join("new"), &table) && same(&other, &table));
    assert!(same(&folder.0.join("old"), &old));
    assert_eq!(folder.files(), 3);
}

#[test]
fn nothing_is_written_over() {
    let (_, old) = tables();
    let folder = Folder::new("over", &old);
    fs::write(folder.0.join("new"), "something").unwrap();
    folder.refuses(["old", "3", "4", "1", "new"], "new: File exists (os error 17)");
    folder.refuses(["old", "3", "4", "1", "old"], "old: File exists (os error 17)");
    assert!(same(&folder.0.join("new"), b"something") && same(&folder.0.join("old"), &old));
    let none = "No such file or directory (os error 2)";
    folder.refuses(["none", "3", "4", "1", "newer"], &format!("none: {none}"));
    folder.refuses(["old", "3", "4", "1", "none/new"], &format!("none/new: {none}"));
}

#[test]
fn refused_with_reasons() {
    let (table, old) = tables();
    let folder = Folder::new("reasons", &old);
    let one = "old: refused 1: a wrong setup, copy or table length";
    let before = "where a table from before there was a second key has";
    folder.refuses(
        ["old", "3", "4", "0", "new"],
        &format!(
            "{one}: it has 3159 bytes and begins with [3, 4, 1], {before} 3159 and begins with [3, 4, 0]"
        ),
    );
    folder.refuses(
        ["old", "4", "4", "0", "new"],
        &format!("{one}: there is no copy 0 of 4 with 4 numbers"),
    );
    fs::write(folder.0.join("old"), &table).unwrap();
    folder.refuses(
        ["old", "3", "4", "1", "new"],
        &format!(
            "{one}: it has 3543 bytes and begins with [3, 4, 1], {before} 3159 and begins with [3, 4, 1]"
        ),
    );
    let mut unsound = old.clone();
    unsound[3] = 7;
    fs::write(folder.0.join("old"), &unsound).unwrap();
    folder.refuses(
        ["old", "3", "4", "1", "new"],
        "old: refused 11: the table, or the place in a stream, is not sound",
    );
    assert_eq!(folder.host(&["old", "3", "4", "one", "new"]).0, Some(2));
    assert_eq!(folder.host(&["old", "3", "4", "1"]).0, Some(2));
}

/// A host that starts on the files of before changes neither of them.
#[test]
fn files_of_before_are_left_alone() {
    let (_, old) = tables();
    let folder = Folder::new("left", &old);
    let (table, journal) = (folder.0.join("copy-0.1.table"), folder.0.join("copy-0.1.journal"));
    let blank = [&[3, 8, 0][..], &vec![0; 263 * 24]].concat();
    fs::write(&table, &blank).unwrap();
    let entry = [&[20, 1, 1, 0][..], &old[3 + 263 * 4..][..263]].concat();
    fs::write(&journal, &entry).unwrap();
    let answer = Command::new(env!("CARGO_BIN_EXE_host")).arg(&folder.0).output().unwrap();
    let told = String::from_utf8(answer.stderr).unwrap();
    assert_eq!(told, "host: 1: a wrong setup, copy or table length\n");
    assert!(same(&table, &blank) && same(&journal, &entry));
}
