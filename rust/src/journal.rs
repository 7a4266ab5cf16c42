//! A journal on disk: one entry after another, each as long as its kind.

use crate::{raw, refused, refused_at, Instance, Refusal, Setup, NO_MESSAGE};

/// What an entry is. Its number is the entry's first byte.
#[derive(Clone, Copy, Debug, PartialEq, Eq)]
pub enum EntryKind {
    /// An instance and its record: one for each event.
    Record = 20,
    /// An instance that was newly marked as handed out: one for each code of a hand-out, in list order.
    Mark = 21,
}

impl EntryKind {
    /// The kind that begins with this byte.
    pub fn from_byte(byte: u8) -> Option<EntryKind> {
        [EntryKind::Record, EntryKind::Mark].into_iter().find(|&kind| kind as u8 == byte)
    }

    /// How many bytes an entry of this kind has, and so the room that its writer asks for.
    pub fn entry_len(self) -> usize {
        // SAFETY: a number alone crosses.
        unsafe { raw::pumxaqert_entry_length(self as usize) }
    }
}

impl Setup {
    /// Writes the instance and its record, as it stands in the table, at the front of the room; the entry's length.
    ///
    /// A host appends it to its journal after each event and waits for the disk before it sends anything. What a cut
    /// leaves of the journal gives the table back:
    ///
    /// ```
    /// use pumxaqert::{Command, EntryKind, Setup, ROOM};
    ///
    /// let setup = Setup { n: 3, s: 4, copy: 0 };
    /// let mut base = vec![0; setup.table_len().unwrap()];
    /// setup.blank(&mut base).unwrap();
    /// let (mut table, mut journal) = (base.clone(), Vec::new());
    ///
    /// let event = setup.request(&mut table, &mut [0; ROOM], Command::write(7, 100)).unwrap();
    /// let mut entry = vec![0; EntryKind::Record.entry_len()];
    /// let length = setup.record_entry(&table, &mut entry, event.instance).unwrap();
    /// journal.extend(&entry[..length]);
    ///
    /// // The next entry was cut off after ten bytes: it did not happen, and the journal ends before it.
    /// journal.extend(&entry[..10]);
    /// let end = setup.replay(&mut base, &journal).unwrap();
    /// journal.truncate(end);
    /// assert_eq!((base, end), (table, length));
    /// ```
    pub fn record_entry(
        &self,
        table: &[u8],
        out: &mut [u8],
        at: Instance,
    ) -> Result<usize, Refusal> {
        self.write_entry(raw::pumxaqert_record_entry, table, out, at)
    }

    /// Writes the entry of an instance that a hand-out has marked at the front of the room; its length.
    pub fn mark_entry(&self, table: &[u8], out: &mut [u8], at: Instance) -> Result<usize, Refusal> {
        self.write_entry(raw::pumxaqert_mark_entry, table, out, at)
    }

    fn write_entry(
        &self,
        call: raw::WritesEntry,
        table: &[u8],
        out: &mut [u8],
        at: Instance,
    ) -> Result<usize, Refusal> {
        let mut written = 0;
        // SAFETY: here and below, each pointer comes from a slice with its length, and no two overlap.
        refused(unsafe {
            call(
                table.as_ptr(),
                table.len(),
                self.n,
                self.s,
                self.copy,
                out.as_mut_ptr(),
                out.len(),
                at.owner,
                at.number,
                &mut written,
            )
        })?;
        Ok(written)
    }

    /// Replays a journal onto the table that it was begun with. The table becomes what it was after the last whole entry;
    /// the answer is where a shorter rest begins, the journal's length if there is none. Cut the journal off there before
    /// anything more is written to it.
    ///
    /// A bad entry is refused with its offset, and the table stays as it was.
    pub fn replay(&self, table: &mut [u8], journal: &[u8]) -> Result<usize, Refusal> {
        let mut offset = 0;
        let number = unsafe {
            raw::pumxaqert_replay(
                table.as_mut_ptr(),
                table.len(),
                self.n,
                self.s,
                self.copy,
                journal.as_ptr(),
                journal.len(),
                &mut offset,
            )
        };
        refused_at(number, NO_MESSAGE, offset)?;
        Ok(offset)
    }
}

/// One whole entry of a journal.
#[derive(Clone, Copy, Debug, PartialEq, Eq)]
pub struct Entry<'a> {
    pub kind: EntryKind,
    pub instance: Instance,
    /// All of the entry, from its kind on.
    pub bytes: &'a [u8],
}

/// The whole entries of a journal, one after another; see [`entries`].
#[derive(Clone, Copy, Debug)]
pub struct Entries<'a> {
    journal: &'a [u8],
}

/// The whole entries of a journal, up to a rest or to a byte of no known kind. Nothing is judged here: ask
/// [`Setup::replay`] first.
pub fn entries(journal: &[u8]) -> Entries<'_> {
    Entries { journal }
}

impl<'a> Iterator for Entries<'a> {
    type Item = Entry<'a>;

    fn next(&mut self) -> Option<Entry<'a>> {
        let kind = EntryKind::from_byte(*self.journal.first()?)?;
        let (bytes, rest) = self.journal.split_at_checked(kind.entry_len())?;
        self.journal = rest;
        let number = u16::from_le_bytes([bytes[2], bytes[3]]);
        let instance = Instance { owner: bytes[1] as usize, number: number as usize };
        Some(Entry { kind, instance, bytes })
    }
}
