//! Replays recorded runs from blank tables and compares every answer, every
//! outgoing byte and every list; also that nothing else was touched. Every copy
//! keeps a journal, which after each call gives its table, and after a cut what
//! it goes on with.
//!
//! replay RUNS: by today's rules, whatever they were recorded by.
//! replay as-recorded RUNS: by those that were in force, which the number of the
//! last change in a run's first line tells: before 4/12 another interference.
//! (Before 5/12 kinds 9 to 12 were unknown, and no run from then has one.)

use second::journal::{self, length_of, mark_entry, record_entry};
use second::refusal::NotReplayed;
use second::rules::{interfere, same_object, Command};
use second::stream::{self, Place, Stream};
use second::table::MARK_AT;
use second::{
    blank_table, hand_out, judge_table, message_by, nudge, record_part, recover, request_by,
    settled, table_len, Event, Refusal, Settled,
};
use std::path::{Path, PathBuf};
use std::process::ExitCode;

/// Contents of lent memory before a call, to see what the call leaves alone.
const UNTOUCHED: u8 = 0xa5;
const ROOM: usize = 256;

/// What a copy has written since its table was blank.
#[derive(Clone, Default)]
struct Journal {
    bytes: Vec<u8>,
    /// Where the entries of the copy's last call begin.
    last: usize,
}

type Rule = fn(&Command, &Command) -> bool;
type Writer = fn(&[u8], usize, usize, usize, &mut [u8], usize, usize) -> Result<usize, Refusal>;

impl Journal {
    /// Ends of the last call's entries, the start before the first of them included.
    fn ends(&self) -> Vec<usize> {
        let mut ends = vec![self.last];
        let mut at = self.last;
        while let Some(length) = self.bytes.get(at).and_then(|&kind| length_of(kind)) {
            at += length;
            ends.push(at);
        }
        ends
    }
}

/// The copies of one run, and the stream that was opened last: its buffer and its place.
struct Run {
    n: usize,
    s: usize,
    by: Rule,
    /// A line with a command has a second key: from 5/12 on.
    two_keys: bool,
    tables: Vec<Vec<u8>>,
    journals: Vec<Journal>,
    cuts: usize,
    stream: (Vec<u8>, Place),
}

impl Run {
    /// By the first line's words.
    fn start(words: &[&str], as_recorded: bool) -> Result<Run, String> {
        let (n, s) = (number(words, 1)?, number(words, 2)?);
        let change = number::<u8>(words, 3).unwrap_or(0);
        let by = if as_recorded && change < 4 { same_object } else { interfere };
        let tables = (0..n).map(|copy| blank(n, s, copy)).collect::<Result<_, _>>()?;
        let journals = vec![Journal::default(); n];
        let (cuts, stream) = (0, Default::default());
        Ok(Run { n, s, by, two_keys: change >= 5, tables, journals, cuts, stream })
    }

    /// A stream belongs to no copy.
    fn line(&mut self, words: &[&str]) -> Result<String, String> {
        match *words {
            ["stream", room] => return self.open(number(&[room], 0)?),
            ["take", bytes] => return self.take(&from_hex(bytes)?),
            _ => {}
        }
        let copy = number(words, 0)?;
        let journal = self.journals.get_mut(copy).ok_or("no such copy")?;
        let told = match *words {
            [_, "cut", _] => self.cut(copy, number(words, 2)?)?,
            _ => {
                journal.last = journal.bytes.len();
                self.call(copy, words)?
            }
        };
        let (offset, table) = self.replayed(copy, &self.journals[copy].bytes)?;
        if offset != self.journals[copy].bytes.len() || table != self.tables[copy] {
            return Err("the journal gives another table".into());
        }
        Ok(told)
    }

    /// What a journal makes of the copy's blank table, and where its rest begins.
    fn replayed(&self, copy: usize, journal: &[u8]) -> Result<(usize, Vec<u8>), String> {
        let mut t = blank(self.n, self.s, copy)?;
        match journal::replay(&mut t, self.n, self.s, copy, journal) {
            Ok(offset) => Ok((offset, t)),
            Err(NotReplayed { refusal, offset }) => {
                Err(format!("the journal is refused {refusal} at {offset}"))
            }
        }
    }

    /// Cuts the copy off inside the entry after the first so many of its last call, and starts it again by replay.
    fn cut(&mut self, copy: usize, keep: usize) -> Result<String, String> {
        let ends = self.journals[copy].ends();
        let start = *ends.get(keep).ok_or("the last call has fewer entries")?;
        let rest = match ends.get(keep + 1) {
            // At least its first byte and never all; another part each time.
            Some(end) => 1 + 37 * self.cuts % (end - start - 1),
            None => 0,
        };
        self.cuts += 1;
        let (offset, table) = self.replayed(copy, &self.journals[copy].bytes[..start + rest])?;
        self.tables[copy] = table;
        let journal = &mut self.journals[copy];
        journal.bytes.truncate(offset);
        Ok(format!("kept {}", journal.ends().len() - 1))
    }

    fn write(&mut self, copy: usize, writer: Writer, o: usize, j: usize) -> Result<(), String> {
        let mut out = [UNTOUCHED; ROOM + 64];
        let length = writer(&self.tables[copy], self.n, self.s, copy, &mut out, o, j)
            .map_err(|r| format!("the entry of {o}.{j} is refused {r}"))?;
        if out[length..].iter().any(|&b| b != UNTOUCHED) {
            return Err("wrote beyond the entry".into());
        }
        self.journals[copy].bytes.extend(&out[..length]);
        Ok(())
    }

    fn open(&mut self, room: usize) -> Result<String, String> {
        let buf = vec![UNTOUCHED; room];
        match stream::begin(&buf) {
            Ok(place) => {
                self.stream = (buf, place);
                Ok("opened".into())
            }
            Err(r) => Ok(format!("refused {r}")),
        }
    }

    fn take(&mut self, bytes: &[u8]) -> Result<String, String> {
        let (buf, place) = &mut self.stream;
        let before = buf.clone();
        let mut stream = Stream::again(buf, *place).map_err(|r| format!("refused {r}"))?;
        let mut told = String::new();
        stream.play(bytes, &mut told).expect("a text takes all");
        *place = stream.place();
        if buf[place.end..] != before[place.end..] {
            return Err("the buffer changed after what is held".into());
        }
        Ok(told)
    }

    /// The answer as the vectors write it, or what the call did wrong besides.
    fn call(&mut self, copy: usize, words: &[&str]) -> Result<String, String> {
        let (n, s, by) = (self.n, self.s, self.by);
        let numbers = || Ok::<_, String>((number(words, 2)?, number(words, 3)?));
        let what = *words.get(1).ok_or("no call")?;
        let length = match what {
            "request" => 5 + self.two_keys as usize,
            "message" | "handout" => 3,
            _ => 4,
        };
        if words.len() != length {
            return Err("wrong number of words".into());
        }
        let t = &mut self.tables[copy];
        let before = t.clone();
        let mut out = [UNTOUCHED; ROOM];
        let event = match what {
            "request" => {
                let Command { op, key, second, edit } = command(&words[2..])?;
                request_by(by, t, n, s, copy, &mut out, op, key, second, edit)
            }
            "message" => message_by(by, t, n, s, copy, &mut out, &from_hex(words[2])?),
            "recover" => numbers().map(|(o, j)| recover(t, n, s, copy, &mut out, o, j))?,
            "nudge" => numbers().map(|(o, j)| nudge(t, n, s, copy, &mut out, o, j))?,
            "settled" => return numbers().map(|(o, j)| self.settled(copy, o, j)),
            "handout" => return self.hand_out(copy, number(words, 2)?),
            _ => return Err("unknown call".into()),
        };
        let told = answered(event, t, &before, &out, n, s, copy)?;
        if let Ok(Event { owner, number, .. }) = event {
            self.write(copy, record_entry, owner, number)?;
        }
        Ok(told)
    }

    fn settled(&self, copy: usize, o: usize, j: usize) -> String {
        match settled(&self.tables[copy], self.n, self.s, copy, o, j) {
            Ok(Settled::Command { op, key, second, edit }) if self.two_keys => {
                format!("settled {op} {key} {second} {edit}")
            }
            Ok(Settled::Command { op, key, edit, .. }) => format!("settled {op} {key} {edit}"),
            Ok(Settled::Waits { owner, number }) => format!("waits {owner} {number}"),
            Err(r) => format!("refused {r}"),
        }
    }

    fn hand_out(&mut self, copy: usize, room: usize) -> Result<String, String> {
        let codes = match handed_out(&mut self.tables[copy], self.n, self.s, copy, room)? {
            Ok(codes) => codes,
            Err(r) => return Ok(format!("refused {r}")),
        };
        let mut told = String::from("codes");
        for code in codes {
            self.write(copy, mark_entry, (code / 256) as usize, (code % 256) as usize)?;
            told += &format!(" {code}");
        }
        Ok(told)
    }
}

/// A request's words: op, key, second key where the run has one, edit.
fn command(words: &[&str]) -> Result<Command, String> {
    let last = words.len() - 1;
    let second = if last == 3 { number(words, 2)? } else { 0 };
    Ok(Command {
        op: number(words, 0)?,
        key: number(words, 1)?,
        second,
        edit: number(words, last)?,
    })
}

fn blank(n: usize, s: usize, copy: usize) -> Result<Vec<u8>, String> {
    let mut t = vec![UNTOUCHED; table_len(n, s)];
    blank_table(&mut t, n, s, copy).map_err(|r| format!("no blank table: refused {r}"))?;
    Ok(t)
}

/// An event's answer, once its table and room are what it says.
fn answered(
    event: Result<Event, Refusal>,
    t: &[u8],
    before: &[u8],
    out: &[u8; ROOM],
    n: usize,
    s: usize,
    copy: usize,
) -> Result<String, String> {
    match event {
        Err(r) => {
            if t != before || *out != [UNTOUCHED; ROOM] {
                return Err(format!("refused {r} but lent memory changed"));
            }
            Ok(format!("refused {r}"))
        }
        Ok(Event { owner, number, written }) => {
            let (at, len) = record_part(t, n, s, copy, owner, number);
            if len == 0 || t[..at] != before[..at] || t[at + len..] != before[at + len..] {
                return Err("changed more than its record".into());
            }
            if out[written..].iter().any(|&b| b != UNTOUCHED) {
                return Err("wrote beyond what it says".into());
            }
            judge_table(t, n, s, copy).map_err(|r| format!("table then refused {r}"))?;
            Ok(format!("event {owner} {number} {}", to_hex(&out[..written])))
        }
    }
}

/// The codes, once nothing but their marks has changed.
fn handed_out(
    t: &mut [u8],
    n: usize,
    s: usize,
    copy: usize,
    room: usize,
) -> Result<Result<Vec<u16>, Refusal>, String> {
    let untouched = u16::from_le_bytes([UNTOUCHED, UNTOUCHED]);
    let mut list = vec![untouched; room];
    let mut marked = t.to_vec();
    let count = match hand_out(t, n, s, copy, &mut list) {
        Ok(count) => count,
        Err(r) => return Ok(Err(r)),
    };
    if list[count..].iter().any(|&code| code != untouched) {
        return Err("wrote beyond the listed codes".into());
    }
    for &code in &list[..count] {
        let (at, _) = record_part(t, n, s, copy, (code / 256) as usize, (code % 256) as usize);
        marked[at + MARK_AT] = 1;
    }
    if t != marked {
        return Err("changed more than the marks".into());
    }
    judge_table(t, n, s, copy).map_err(|r| format!("table then refused {r}"))?;
    list.truncate(count);
    Ok(Ok(list))
}

fn number<T: std::str::FromStr>(words: &[&str], at: usize) -> Result<T, String> {
    words.get(at).and_then(|w| w.parse().ok()).ok_or_else(|| format!("word {at} is no such number"))
}

fn from_hex(text: &str) -> Result<Vec<u8>, String> {
    if text == "-" {
        return Ok(Vec::new());
    }
    if !text.is_ascii() || !text.len().is_multiple_of(2) {
        return Err("bad hex".into());
    }
    (0..text.len())
        .step_by(2)
        .map(|i| u8::from_str_radix(&text[i..i + 2], 16).map_err(|_| "bad hex".to_string()))
        .collect()
}

fn to_hex(bytes: &[u8]) -> String {
    if bytes.is_empty() {
        return "-".into();
    }
    bytes.iter().map(|b| format!("{b:02x}")).collect()
}

/// Calls compared and mismatches found in one file.
fn replay(path: &Path, as_recorded: bool) -> Result<(usize, usize), String> {
    let text = std::fs::read_to_string(path).map_err(|e| e.to_string())?;
    let (mut calls, mut mismatches) = (0, 0);
    let mut run: Option<Run> = None;
    let mut lines = text.lines().enumerate().map(|(i, line)| (i + 1, line.trim()));
    while let Some((at, line)) = lines.next() {
        if line.is_empty() {
            continue;
        }
        let words: Vec<&str> = line.split_whitespace().collect();
        if words[0] == "run" {
            let started = Run::start(&words, as_recorded);
            if let Err(wrong) = &started {
                println!("{}:{at}: {line}: {wrong}", path.display());
                mismatches += 1;
            }
            run = started.ok();
            continue;
        }
        let wanted = lines.next().and_then(|(_, answer)| answer.strip_prefix('=')).map(str::trim);
        let got = match &mut run {
            Some(run) => run.line(&words),
            None => Err("no run was started".into()),
        };
        calls += 1;
        match (wanted, got) {
            (Some(wanted), Ok(got)) if wanted == got => {}
            (wanted, got) => {
                mismatches += 1;
                let wanted = wanted.unwrap_or("no answer line");
                let got = got.unwrap_or_else(|wrong| format!("[{wrong}]"));
                println!("{}:{at}: {line}\n  vector: {wanted}\n  second: {got}", path.display());
            }
        }
    }
    Ok((calls, mismatches))
}

/// The files named, and for a folder its .txt files by name.
fn files(words: &[String]) -> std::io::Result<Vec<PathBuf>> {
    let mut files = Vec::new();
    for path in words.iter().map(PathBuf::from) {
        if !path.is_dir() {
            files.push(path);
            continue;
        }
        let entries: Result<Vec<_>, _> = path.read_dir()?.map(|e| e.map(|e| e.path())).collect();
        let mut entries = entries?;
        entries.retain(|path| path.extension().is_some_and(|e| e == "txt"));
        entries.sort();
        files.extend(entries);
    }
    Ok(files)
}

fn main() -> ExitCode {
    let words: Vec<String> = std::env::args().skip(1).collect();
    let as_recorded = words.first().is_some_and(|word| word == "as-recorded");
    let files = match files(&words[as_recorded as usize..]) {
        Ok(files) if !files.is_empty() => files,
        other => {
            eprintln!("usage: replay [as-recorded] RUNS, files or folders ({other:?})");
            return ExitCode::from(2);
        }
    };
    let (mut calls, mut mismatches) = (0, 0);
    for path in &files {
        match replay(path, as_recorded) {
            Ok((c, m)) => {
                println!("{}: {c} calls, {m} mismatches", path.display());
                calls += c;
                mismatches += m;
            }
            Err(e) => {
                println!("{}: {e}", path.display());
                mismatches += 1;
            }
        }
    }
    println!("{calls} calls, {mismatches} mismatches");
    if mismatches > 0 {
        ExitCode::FAILURE
    } else {
        ExitCode::SUCCESS
    }
}
