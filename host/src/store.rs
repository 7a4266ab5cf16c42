//! One copy's files: a table, and the journal that was begun with it.
//!
//! A table and its journal bear one generation's number, and the newest table counts. A journal is begun anew so that at
//! every moment a cut leaves two that belong together: the new journal is on the disk, under its name, before the new
//! table gets its own; until then the old two count, and nothing is written to the new journal before.
//!
//! The order in which edits were handed out is the order of marks in the journal, and no third file has to agree with
//! it: a new journal begins with the marks that its table has, in their order. Replayed, they change nothing.

use std::fs::{self, File, OpenOptions};
use std::io::{Error, ErrorKind, Result, Write};
use std::path::{Path, PathBuf};
use std::thread::sleep;
use std::time::Duration;

/// Where files are kept, and how they are written.
#[derive(Clone)]
pub struct Disk {
    pub folder: PathBuf,
    /// Entries are written piece by piece, with pauses, so that a kill from outside often falls inside one.
    pub slow: bool,
}

const PAUSE: Duration = Duration::from_micros(50);

impl Disk {
    /// Makes the folder, if it is not there.
    pub fn make(&self) -> Result<()> {
        fs::create_dir_all(&self.folder)?;
        self.folder.canonicalize()?.parent().map_or(Ok(()), sync_folder)
    }
}

/// A name is on the disk once the folder is in which it stands.
pub fn sync_folder(folder: &Path) -> Result<()> {
    File::open(folder)?.sync_all()
}

pub struct Store {
    files: Files,
    generation: u64,
    journal: File,
    /// The journal's length.
    length: u64,
}

impl Store {
    /// The newest files of this name, with the table's and the journal's bytes; begun with the blank table if there are
    /// none. To be cut off before anything else.
    pub fn open(disk: &Disk, name: &str, blank: &[u8]) -> Result<(Store, Vec<u8>, Vec<u8>)> {
        let files = Files { disk: disk.clone(), name: name.to_string() };
        let generation = match files.newest()? {
            Some(generation) => generation,
            None => {
                files.write_new(1, blank, &[])?;
                files.count_new(1)?;
                1
            }
        };
        let table = fs::read(files.path(generation, "table"))?;
        let bytes = fs::read(files.path(generation, "journal"))?;
        let (journal, length) = (files.append_to(generation)?, bytes.len() as u64);
        Ok((Store { files, generation, journal, length }, table, bytes))
    }

    /// The journal ends here from now on. The disk is waited for also where there is no rest: an earlier life may have ended
    /// between a write and its sync, or a name and its own, and what this one has read it will act on.
    pub fn cut_off(&mut self, length: usize) -> Result<()> {
        self.length = length as u64;
        self.journal.set_len(self.length)?;
        self.journal.sync_all()?;
        sync_folder(&self.files.disk.folder)?;
        self.remove_old()
    }

    /// Appends entries, and waits for the disk.
    pub fn append(&mut self, entries: &[u8]) -> Result<()> {
        let slow = self.files.disk.slow;
        // Pieces of many lengths, and never the whole.
        let piece = (25 + self.length as usize % 97).min(entries.len() - 1);
        for part in entries.chunks(if slow { piece } else { entries.len() }) {
            self.journal.write_all(part)?;
            if slow {
                sleep(PAUSE);
            }
        }
        self.length += entries.len() as u64;
        self.journal.sync_data()
    }

    /// What a cut inside these entries leaves behind.
    pub fn append_torn(&mut self, entries: &[u8], bytes: usize) -> Result<()> {
        self.journal.write_all(&entries[..bytes])?;
        self.journal.sync_data()
    }

    pub fn length(&self) -> usize {
        self.length as usize
    }

    /// Counts the journals of this copy, from 1.
    pub fn generation(&self) -> u64 {
        self.generation
    }

    /// Writes the next generation: this table, and a journal that begins with these marks. It does not count yet.
    pub fn write_next(&self, table: &[u8], marks: &[u8]) -> Result<()> {
        self.files.write_new(self.generation + 1, table, marks)
    }

    /// The next generation counts.
    pub fn count_next(&mut self) -> Result<()> {
        let next = self.generation + 1;
        self.files.count_new(next)?;
        self.journal = self.files.append_to(next)?;
        self.length = self.journal.metadata()?.len();
        self.generation = next;
        Ok(())
    }

    /// Those of the generation before do not count any more, whether they are there or not.
    pub fn remove_old(&self) -> Result<()> {
        for ending in ["table", "journal"] {
            match fs::remove_file(self.files.path(self.generation - 1, ending)) {
                Err(wrong) if wrong.kind() != ErrorKind::NotFound => return Err(wrong),
                _ => {}
            }
        }
        Ok(())
    }

    /// An error where the files do not hold what they should.
    pub fn bad(what: impl ToString) -> Error {
        Error::new(ErrorKind::InvalidData, what.to_string())
    }
}

/// The files of one name, of all generations.
struct Files {
    disk: Disk,
    name: String,
}

impl Files {
    fn path(&self, generation: u64, ending: &str) -> PathBuf {
        self.disk.folder.join(format!("{}.{generation}.{ending}", self.name))
    }

    /// A table that has no generation's name yet, and so does not count.
    fn unnamed(&self) -> PathBuf {
        self.disk.folder.join(format!("{}.new", self.name))
    }

    fn newest(&self) -> Result<Option<u64>> {
        let mut newest = None;
        for file in self.disk.folder.read_dir()? {
            let file = file?.file_name();
            let rest =
                file.to_str().and_then(|file| file.strip_prefix(&self.name)?.strip_prefix('.'));
            let number = rest.and_then(|rest| rest.strip_suffix(".table")?.parse().ok());
            newest = newest.max(number);
        }
        Ok(newest)
    }

    fn write_new(&self, generation: u64, table: &[u8], marks: &[u8]) -> Result<()> {
        write_whole(self.path(generation, "journal"), marks)?;
        write_whole(self.unnamed(), table)?;
        sync_folder(&self.disk.folder)
    }

    fn count_new(&self, generation: u64) -> Result<()> {
        fs::rename(self.unnamed(), self.path(generation, "table"))?;
        sync_folder(&self.disk.folder)
    }

    fn append_to(&self, generation: u64) -> Result<File> {
        OpenOptions::new().append(true).open(self.path(generation, "journal"))
    }
}

fn write_whole(path: PathBuf, bytes: &[u8]) -> Result<()> {
    write_to(File::create(path)?, bytes)
}

/// A file that was not there before.
pub fn write_new(path: &Path, bytes: &[u8]) -> Result<()> {
    write_to(File::create_new(path)?, bytes)
}

fn write_to(mut file: File, bytes: &[u8]) -> Result<()> {
    file.write_all(bytes)?;
    file.sync_all()
}
