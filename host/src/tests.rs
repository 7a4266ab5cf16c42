//! A site is cut off at chosen moments, and its files have what they should; what is taken back is noticed.

use crate::kept::Kept;
use crate::site::{Moment, Outcome, Site};
use crate::store::Disk;
use pumxaqert::{Body, Command, EntryKind, Event, Instance, Message, Setup, ROOM};
use std::path::PathBuf;

const SETUP: Setup = Setup { n: 3, s: 4, copy: 0 };

/// An empty folder, which goes with the test.
struct Folder(PathBuf);

impl Folder {
    fn new(name: &str) -> Folder {
        let name = format!("pumxaqert-host-{}-{name}", std::process::id());
        let folder = std::env::temp_dir().join(name);
        std::fs::create_dir(&folder).unwrap();
        Folder(folder)
    }

    fn start(&self) -> Site {
        Site::start(&Disk { folder: self.0.clone(), slow: false }, SETUP).unwrap()
    }

    /// The files' names, sorted.
    fn files(&self) -> Vec<String> {
        let name = |file: std::io::Result<std::fs::DirEntry>| file.unwrap().file_name();
        let files = self.0.read_dir().unwrap().map(name);
        let mut files: Vec<String> = files.map(|file| file.into_string().unwrap()).collect();
        files.sort();
        files
    }
}

impl Drop for Folder {
    fn drop(&mut self) {
        std::fs::remove_dir_all(&self.0).unwrap();
    }
}

fn request(site: &mut Site, edit: u64) -> Option<Event> {
    let command = Command::write(7, edit);
    match site.event(|s, table, out| s.request(table, out, command)).unwrap() {
        Outcome::Answered(event, _) => Some(event),
        Outcome::Refused(refusal) => panic!("{refusal}"),
        Outcome::Cut => None,
    }
}

/// Copy 1 agrees to this number of copy 0, which is committed then.
fn agree(site: &mut Site, number: u16) {
    let body = Body::PreAcceptOk { deps: [number - 1, 0, 0, 0, 0, 0, 0] };
    let message = Message { from: 1, to: 0, owner: 0, number, ballot: 0, body };
    let mut bytes = [0; ROOM];
    let length = Setup { copy: 1, ..SETUP }.write_message(&mut bytes, &message).unwrap();
    let outcome = site.event(|s, table, out| s.message(table, out, &bytes[..length]));
    assert!(matches!(outcome, Ok(Outcome::Answered(..))));
}

fn own(number: usize) -> Instance {
    Instance { owner: 0, number }
}

fn edits(site: &Site) -> Vec<u64> {
    site.row(0).filter_map(|at| site.edit(at)).map(|command| command.edit).collect()
}

#[test]
fn cut_inside_entries() {
    let folder = Folder::new("inside");
    let mut site = folder.start();
    request(&mut site, 1).unwrap();
    let length = EntryKind::Record.entry_len();
    for bytes in (0..length).step_by(19).chain([length - 1]) {
        site.cut = Some(Moment::InsideEntry(bytes));
        assert_eq!(request(&mut site, 2), None);
        assert_eq!((site.rest, edits(&site)), (bytes, vec![1]));
    }
    assert_eq!(request(&mut site, 2).unwrap().instance, own(2));
    let site = folder.start();
    assert_eq!((site.rest, edits(&site)), (0, vec![1, 2]));
}

#[test]
fn cut_around_entries() {
    let folder = Folder::new("around");
    let mut site = folder.start();
    site.cut = Some(Moment::BeforeEntry);
    assert_eq!((request(&mut site, 1), edits(&site)), (None, vec![]));
    site.cut = Some(Moment::BetweenEntryAndSending);
    assert_eq!((request(&mut site, 2), edits(&site)), (None, vec![2]));
}

/// Three edits that are committed and not handed out.
fn three(folder: &Folder) -> Site {
    let mut site = folder.start();
    for number in 1..=3 {
        request(&mut site, 10 * number as u64).unwrap();
        agree(&mut site, number);
    }
    site
}

#[test]
fn cut_among_marks() {
    let folder = Folder::new("marks");
    let mut site = three(&folder);
    site.cut = Some(Moment::BetweenTwoMarks);
    assert!(!site.hand_out().unwrap());
    assert_eq!((site.order(), site.rest), (&[own(1)][..], 0));
    site.cut = Some(Moment::InsideMark(3));
    assert!(!site.hand_out().unwrap());
    assert_eq!((site.order(), site.rest), (&[own(1), own(2)][..], 3));
    assert!(site.hand_out().unwrap());
    assert_eq!(folder.start().order(), [own(1), own(2), own(3)]);
}

/// Each recovery of an instance that no copy knows is at a higher ballot: the journal grows, and the edits stay.
fn grow(site: &mut Site, events: usize) -> bool {
    let unknown = Instance { owner: 1, number: 1 };
    let recovered = |_| {
        let outcome = site.event(|s, table, out| s.recover(table, out, unknown));
        matches!(outcome, Ok(Outcome::Answered(..)))
    };
    (0..events).all(recovered)
}

#[test]
fn cut_while_a_journal_is_begun_anew() {
    let folder = Folder::new("anew");
    let mut site = three(&folder);
    assert!(site.hand_out().unwrap());
    let kept = |site: &Site| (edits(site), site.order().to_vec());
    let before = kept(&site);
    site.cut = Some(Moment::BeforeNewTable);
    assert!(!grow(&mut site, 100));
    assert_eq!((site.begun_anew(), kept(&site)), (0, before.clone()));
    site.cut = Some(Moment::AfterNewTable);
    assert!(!grow(&mut site, 1));
    assert_eq!((site.begun_anew(), kept(&site)), (1, before.clone()));
    assert_eq!(folder.files(), ["copy-0.2.journal", "copy-0.2.table"]);
    assert!(grow(&mut site, 100));
    assert!(site.begun_anew() > 1);
    assert_eq!((kept(&site), kept(&folder.start())), (before.clone(), before));
    assert_eq!(folder.files().len(), 2);
}

#[test]
fn damaged_journal() {
    let folder = Folder::new("damaged");
    drop(three(&folder));
    let disk = Disk { folder: folder.0.clone(), slow: false };
    std::fs::write(folder.0.join("copy-0.1.journal"), [99]).unwrap();
    let wrong = Site::start(&disk, SETUP).err().unwrap();
    assert_eq!(wrong.to_string(), "41: an entry of unknown kind, at byte 0");
}

/// What the parent of killed hosts says of these lives, each told line by line.
fn heard(lives: &[&str]) -> std::io::Result<()> {
    let mut kept = Kept::default();
    for life in lives {
        let mut lines = life.split('|').map(|line| line.split_whitespace().collect::<Vec<_>>());
        lines.try_for_each(|words| kept.hear(&words))?;
        kept.end_life()?;
    }
    kept.end_log()
}

#[test]
fn what_is_taken_back_is_noticed() {
    let took = "copy 0 took 0.1 cell 7 edit 5";
    let lost = "copy 0 lost 0.1 to a no-op";
    let done = "copy 0 committed 0.1 cell 7 edit 5 after [0]";
    let more = "copy 0 committed 1.1 cell 7 edit 6 after [1]";
    let no_op = "copy 1 committed 0.1 cell 0 edit 0 after [0]";
    let out = "copy 0 handed-out 0.1";
    let next = "copy 0 handed-out 1.1";
    let good = |lives: &[&[&str]]| {
        let lives: Vec<String> = lives.iter().map(|lines| lines.join("|")).collect();
        heard(&lives.iter().map(String::as_str).collect::<Vec<_>>()).is_ok()
    };
    let all = &[took, done, more, out, next, "ready"][..];
    assert!(good(&[&["ready", took], &[took, "ready", done, out], all, all]));
    assert!(good(&[&["ready", took], &[lost, "ready"], &[lost, no_op, "ready"]]));
    assert!(!good(&[&["ready", took], &["ready"]]));
    assert!(!good(&[&["ready", took, lost], &[lost, done, "ready"]]));
    assert!(!good(&[&["ready", done, out], &[done, "ready"]]));
    assert!(!good(&[&["ready", done, out], &[out, "ready"]]));
    assert!(!good(&[&["ready", done, no_op]]));
    assert!(!good(&[&["ready", done, more, out, next], &[done, more, next, out, "ready"]]));
    let (other, last) = ("copy 1 handed-out 1.1", "copy 1 handed-out 0.1");
    assert!(!good(&[&["ready", done, more, out, next, other, last]]));
    assert!(!good(&[&["ready", done, more, out]]), "committed, and not handed out");
    assert!(!good(&[&["ready", done, "copy 0 committed 2.1 cell 7 edit 5 after [1]"]]));
    assert!(!good(&[&["something"]]));
    // An edit of both cells stands in the order of each.
    let both = "copy 0 committed 0.1 cell 7,9 edit 5 after [0]";
    let nine = "copy 0 committed 1.1 cell 9 edit 6 after [1]";
    assert!(good(&[&["ready", both, nine, out, next, last, other]]));
    assert!(!good(&[&["ready", both, nine, out, next, other, last]]));
}
