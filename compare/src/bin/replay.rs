//! replay DIR_OR_FILES: recorded runs through the public C calls and through the second program: every answer, every
//! outgoing byte and every list as recorded, and every byte of tables, streams' buffers and journals the same on both
//! sides. Every copy keeps a journal, which after each call gives its table, and after a cut what it goes on with.

use compare::both::{Answer, Both, Call, Pair, LIST};
use compare::guarded::JournalCall;
use compare::journals::{Book, Journals};
use compare::make;
use compare::streams::{self, Readers};
use pumxaqert::{Instance, Setup, ROOM};
use std::path::{Path, PathBuf};
use std::process::ExitCode;

/// One copy: its tables, its disk, and how many entries that held before its last call.
struct Copy {
    tables: Pair,
    book: Book,
    before: usize,
}

/// The copies of one run, and the stream that was opened last.
struct Run {
    n: usize,
    s: usize,
    /// A line with a command has a second key: from 5/12 on.
    two_keys: bool,
    copies: Vec<Copy>,
    both: Both,
    readers: Readers,
    journals: Journals,
}

impl Run {
    fn start(words: &[&str]) -> Result<Run, String> {
        let (n, s) = (number(words, 1)?, number(words, 2)?);
        let mut both = Both::default();
        let mut copies = Vec::new();
        for copy in 0..n {
            let setup = Setup { n, s, copy };
            let mut tables = Pair::of(&vec![0xa5; second::table_len(n, s)]);
            match both.call(setup, ROOM, Call::Blank, &mut tables)? {
                Answer::Done if tables.ours == make::blank(setup) => {
                    let book = Book::new(setup, &tables.ours);
                    copies.push(Copy { tables, book, before: 0 });
                }
                other => return Err(format!("no blank table: {other:?}")),
            }
        }
        let two_keys = number::<u8>(words, 3).unwrap_or(0) >= 5;
        let (readers, journals) = (Readers::default(), Journals::default());
        Ok(Run { n, s, two_keys, copies, both, readers, journals })
    }

    /// The answer as the recorded runs write it. A stream belongs to no copy.
    fn line(&mut self, words: &[&str]) -> Result<String, String> {
        match *words {
            ["stream", _] => match self.readers.begin(number(words, 1)?)? {
                streams::Answer::Begun => Ok("opened".into()),
                streams::Answer::Refused(refusal) => Ok(format!("refused {refusal}")),
                other => Err(format!("{other:?}")),
            },
            ["take", bytes] => self.take(&from_hex(bytes)?),
            [_, "cut", _] => self.cut(number(words, 0)?, number(words, 2)?),
            _ => self.call(words),
        }
    }

    /// Cuts the copy off inside the entry after the first so many of its last call, and starts it again by replay.
    fn cut(&mut self, copy: usize, keep: usize) -> Result<String, String> {
        let Copy { tables, book, before } = self.copies.get_mut(copy).ok_or("no such copy")?;
        if *before + keep > book.saves.len() {
            return Err("the last call has fewer entries".into());
        }
        let turn = self.journals.counts.restarts as usize;
        tables.set(&book.restart(&mut self.journals, *before + keep, turn)?);
        Ok(format!("kept {}", book.saves.len() - *before))
    }

    /// One take, and then every whole message.
    fn take(&mut self, bytes: &[u8]) -> Result<String, String> {
        let count = match self.readers.take(bytes)? {
            streams::Answer::Took(count) => count,
            streams::Answer::Stopped(_) => 0,
            other => return Err(format!("{other:?}")),
        };
        let mut told = format!("took {count} messages");
        loop {
            match self.readers.next_message()? {
                streams::Answer::Message(start, length) => {
                    told += &format!(" {}", to_hex(self.readers.message(start, length)));
                }
                streams::Answer::Stop(offset) => return Ok(told + &format!(" stop {offset}")),
                _ => return Ok(told),
            }
        }
    }

    fn call(&mut self, words: &[&str]) -> Result<String, String> {
        let copy: usize = number(words, 0)?;
        let bytes;
        let named = || Ok::<_, String>((number(words, 2)?, number(words, 3)?));
        let call = match *words.get(1).ok_or("no call")? {
            "request" => self.request(&words[2..])?,
            "message" => {
                bytes = from_hex(words.get(2).ok_or("no bytes")?)?;
                Call::Message(&bytes)
            }
            "recover" => named().map(|(o, j)| Call::Recover(o, j))?,
            "nudge" => named().map(|(o, j)| Call::Nudge(o, j))?,
            "settled" => named().map(|(o, j)| Call::Settled(o, j))?,
            "handout" => Call::HandOut(number::<usize>(words, 2)?.min(LIST)),
            _ => return Err("unknown call".into()),
        };
        let setup = Setup { n: self.n, s: self.s, copy };
        let its = self.copies.get_mut(copy).ok_or("no such copy")?;
        let answer = self.both.call(setup, ROOM, call, &mut its.tables)?;
        self.save(copy, answer)?;
        Ok(self.written(answer))
    }

    /// Op, key, second key where the run has one, edit.
    fn request(&self, words: &[&str]) -> Result<Call<'static>, String> {
        let last = 2 + self.two_keys as usize;
        if words.len() != last + 1 {
            return Err("wrong number of words".into());
        }
        let second = if self.two_keys { number(words, 2)? } else { 0 };
        Ok(Call::Request(number(words, 0)?, number(words, 1)?, second, number(words, last)?))
    }

    /// Writes what the answer leaves to be saved; the journal then gives the copy's table.
    fn save(&mut self, copy: usize, answer: Answer) -> Result<(), String> {
        let Copy { tables, book, before } = &mut self.copies[copy];
        *before = book.saves.len();
        let entries = match answer {
            Answer::Event(o, j, _) => vec![JournalCall::RecordEntry(o, j)],
            Answer::Codes(count) => self.both.ours.list[..count]
                .iter()
                .map(|&code| Instance::of_code(code))
                .map(|i| JournalCall::MarkEntry(i.owner, i.number))
                .collect(),
            _ => Vec::new(),
        };
        entries
            .into_iter()
            .try_for_each(|entry| book.write(&mut self.journals, entry, &tables.ours))?;
        book.holds(&mut self.journals, &tables.ours)
    }

    fn written(&self, answer: Answer) -> String {
        match answer {
            Answer::Refused(refusal) => format!("refused {refusal}"),
            Answer::Event(o, j, written) => {
                format!("event {o} {j} {}", to_hex(&self.both.ours.out[..written]))
            }
            Answer::Settled(op, key, second, edit) if self.two_keys => {
                format!("settled {op} {key} {second} {edit}")
            }
            Answer::Settled(op, key, _, edit) => format!("settled {op} {key} {edit}"),
            Answer::Waits(o, j) => format!("waits {o} {j}"),
            Answer::Codes(count) => {
                let codes = self.both.ours.list[..count].iter();
                format!("codes{}", codes.map(|code| format!(" {code}")).collect::<String>())
            }
            other => format!("{other:?}"),
        }
    }
}

fn number<T: std::str::FromStr>(words: &[&str], at: usize) -> Result<T, String> {
    words.get(at).and_then(|w| w.parse().ok()).ok_or_else(|| format!("word {at} is no such number"))
}

fn from_hex(text: &str) -> Result<Vec<u8>, String> {
    if text == "-" {
        return Ok(Vec::new());
    }
    if !text.is_ascii() || !text.len().is_multiple_of(2) {
        return Err("bad hex".into());
    }
    (0..text.len())
        .step_by(2)
        .map(|i| u8::from_str_radix(&text[i..i + 2], 16).map_err(|_| "bad hex".to_string()))
        .collect()
}

fn to_hex(bytes: &[u8]) -> String {
    match bytes.is_empty() {
        true => "-".into(),
        false => bytes.iter().map(|b| format!("{b:02x}")).collect(),
    }
}

/// Calls compared and mismatches found in one file.
fn replay(path: &Path) -> Result<(usize, usize), String> {
    let text = std::fs::read_to_string(path).map_err(|e| e.to_string())?;
    let (mut calls, mut mismatches) = (0, 0);
    let mut run = Err("no run was started".to_string());
    let mut lines = text.lines().enumerate();
    while let Some((at, line)) = lines.next() {
        let words: Vec<&str> = line.split_whitespace().collect();
        if words.is_empty() {
            continue;
        }
        if words[0] == "run" {
            run = Run::start(&words);
            continue;
        }
        let wanted = lines.next().and_then(|(_, answer)| answer.strip_prefix('=')).map(str::trim);
        let got = run.as_mut().map_err(|wrong| wrong.clone()).and_then(|run| run.line(&words));
        calls += 1;
        if got.as_deref().ok() != wanted || wanted.is_none() {
            mismatches += 1;
            let wanted = wanted.unwrap_or("no answer line");
            println!(
                "{}:{}: {line}\n  recorded: {wanted}\n  library:  {got:?}",
                path.display(),
                at + 1
            );
        }
    }
    Ok((calls, mismatches))
}

/// The files named, and for a folder its .txt files by name.
fn files() -> std::io::Result<Vec<PathBuf>> {
    let mut files = Vec::new();
    for word in std::env::args().skip(1) {
        let path = PathBuf::from(word);
        if path.is_dir() {
            let entries: Result<Vec<_>, _> =
                path.read_dir()?.map(|e| e.map(|e| e.path())).collect();
            let mut entries = entries?;
            entries.retain(|path| path.extension().is_some_and(|e| e == "txt"));
            entries.sort();
            files.extend(entries);
        } else {
            files.push(path);
        }
    }
    Ok(files)
}

fn main() -> ExitCode {
    let files = match files() {
        Ok(files) if !files.is_empty() => files,
        other => {
            eprintln!("usage: replay DIR_OR_FILES ({other:?})");
            return ExitCode::from(2);
        }
    };
    let (mut calls, mut mismatches) = (0, 0);
    for path in &files {
        let (c, m) = replay(path).unwrap_or_else(|wrong| {
            println!("{}: {wrong}", path.display());
            (0, 1)
        });
        calls += c;
        mismatches += m;
    }
    println!("{} files, {calls} calls, {mismatches} mismatches", files.len());
    match mismatches == 0 && calls > 0 {
        true => ExitCode::SUCCESS,
        false => ExitCode::FAILURE,
    }
}
