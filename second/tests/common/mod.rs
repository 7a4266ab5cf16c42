//! Tables built by hand from docs/LAYOUT.md, and a small random source.
#![allow(dead_code)]

use second::*;

/// The bytes of a vote and of a record, and where its replies begin.
pub const VOTE: usize = 36;
pub const RECORD: usize = 295;
pub const REPLIES: usize = 43;
/// The length of each kind of message; kind 0 is none.
pub const LENGTHS: [usize; 13] = [0, 37, 24, 37, 10, 37, 10, 42, 14, 41, 41, 41, 46];

#[derive(Clone, Copy, Debug, Default, PartialEq, Eq)]
pub struct Vote {
    pub voted: u32,
    pub status: u8,
    pub op: u8,
    pub key: u32,
    pub second: u32,
    pub edit: u64,
    pub deps: [u16; 7],
}

#[derive(Clone, Copy, Debug, Default, PartialEq, Eq)]
pub struct Rec {
    pub joined: u32,
    pub own: Vote,
    pub mark: u8,
    pub phase: u8,
    pub set: u8,
    pub replies: [Vote; 7],
}

pub fn deps(first: &[u16]) -> [u16; 7] {
    let mut all = [0; 7];
    all[..first.len()].copy_from_slice(first);
    all
}

pub fn vote(voted: u32, status: u8, op: u8, key: u32, edit: u64, d: &[u16]) -> Vote {
    Vote { voted, status, op, key, second: 0, edit, deps: deps(d) }
}

/// A vote for a rewire.
pub fn rewire(voted: u32, status: u8, key: u32, second: u32, edit: u64, d: &[u16]) -> Vote {
    Vote { second, ..vote(voted, status, 3, key, edit, d) }
}

pub fn reply_deps(d: &[u16]) -> Vote {
    Vote { deps: deps(d), ..Vote::default() }
}

impl Vote {
    pub fn bytes(&self) -> Vec<u8> {
        let mut b = self.voted.to_le_bytes().to_vec();
        b.push(self.status);
        b.push(self.op);
        b.extend(self.key.to_le_bytes());
        b.extend(self.second.to_le_bytes());
        b.extend(self.edit.to_le_bytes());
        for d in self.deps {
            b.extend(d.to_le_bytes());
        }
        assert_eq!(b.len(), VOTE);
        b
    }

    pub fn from(b: &[u8]) -> Vote {
        let mut d = [0; 7];
        for (q, entry) in d.iter_mut().enumerate() {
            *entry = u16::from_le_bytes([b[22 + 2 * q], b[23 + 2 * q]]);
        }
        Vote {
            voted: u32::from_le_bytes(b[0..4].try_into().unwrap()),
            status: b[4],
            op: b[5],
            key: u32::from_le_bytes(b[6..10].try_into().unwrap()),
            second: u32::from_le_bytes(b[10..14].try_into().unwrap()),
            edit: u64::from_le_bytes(b[14..22].try_into().unwrap()),
            deps: d,
        }
    }
}

impl Rec {
    pub fn bytes(&self) -> Vec<u8> {
        let mut b = self.joined.to_le_bytes().to_vec();
        b.extend(self.own.bytes());
        b.extend([self.mark, self.phase, self.set]);
        for r in &self.replies {
            b.extend(r.bytes());
        }
        assert_eq!(b.len(), RECORD);
        b
    }

    pub fn from(b: &[u8]) -> Rec {
        let mut replies = [Vote::default(); 7];
        for (q, r) in replies.iter_mut().enumerate() {
            *r = Vote::from(&b[REPLIES + VOTE * q..REPLIES + VOTE * (q + 1)]);
        }
        Rec {
            joined: u32::from_le_bytes(b[0..4].try_into().unwrap()),
            own: Vote::from(&b[4..40]),
            mark: b[40],
            phase: b[41],
            set: b[42],
            replies,
        }
    }

    /// Committed with a write of this key.
    pub fn committed(key: u32, d: &[u16]) -> Rec {
        Rec { own: vote(0, 4, 2, key, 1, d), ..Rec::default() }
    }
}

/// A refusal that names no field.
pub fn refused(number: u8) -> Refusal {
    Refusal::of(number)
}

/// One copy with its table.
#[derive(Clone, PartialEq, Eq, Debug)]
pub struct Copy {
    pub n: usize,
    pub s: usize,
    pub copy: usize,
    pub t: Vec<u8>,
}

impl Copy {
    pub fn blank(n: usize, s: usize, copy: usize) -> Copy {
        let mut t = vec![0xff; 3 + RECORD * n * s];
        blank_table(&mut t, n, s, copy).unwrap();
        Copy { n, s, copy, t }
    }

    fn at(&self, o: usize, j: usize) -> usize {
        3 + RECORD * (o * self.s + (j - 1))
    }

    pub fn put(&mut self, o: usize, j: usize, r: &Rec) -> &mut Copy {
        let at = self.at(o, j);
        self.t[at..at + RECORD].copy_from_slice(&r.bytes());
        self
    }

    pub fn get(&self, o: usize, j: usize) -> Rec {
        let at = self.at(o, j);
        Rec::from(&self.t[at..at + RECORD])
    }

    pub fn judge(&self) -> Result<(), Refusal> {
        judge_table(&self.t, self.n, self.s, self.copy)
    }

    /// Runs an event, and asks of it what holds for all: a refusal touches
    /// nothing; otherwise only its record and the bytes written change, the
    /// table stays sound, and each message is valid where it goes.
    fn event(
        &mut self,
        call: impl FnOnce(&mut [u8], &mut [u8]) -> Result<Event, Refusal>,
    ) -> Result<(Event, Vec<Message>), Refusal> {
        let before = self.t.clone();
        let mut out = [0xa5; 300];
        let answer = call(&mut self.t, &mut out);
        let e = match answer {
            Err(r) => {
                assert_eq!(self.t, before);
                assert_eq!(out, [0xa5; 300]);
                return Err(r);
            }
            Ok(e) => e,
        };
        let (at, len) = record_part(&self.t, self.n, self.s, self.copy, e.owner, e.number);
        assert_eq!((at, len), (self.at(e.owner, e.number), RECORD));
        assert_eq!(self.t[..at], before[..at]);
        assert_eq!(self.t[at + len..], before[at + len..]);
        assert!(out[e.written..].iter().all(|&b| b == 0xa5));
        assert_eq!(self.judge(), Ok(()));
        Ok((e, self.split(&out[..e.written])))
    }

    fn split(&self, mut out: &[u8]) -> Vec<Message> {
        let mut all: Vec<Message> = Vec::new();
        while !out.is_empty() {
            let len = LENGTHS[out[0] as usize];
            let to = out[2] as usize;
            let m = read_message(self.n, self.s, to, &out[..len]).expect("valid where it goes");
            assert_eq!(m.from as usize, self.copy);
            assert!(all.last().is_none_or(|l| l.to < m.to), "rising destinations");
            let mut again = [0xa5; 256];
            assert_eq!(write_message(self.n, self.s, self.copy, &mut again, &m), Ok(len));
            assert_eq!(again[..len], out[..len]);
            assert!(again[len..].iter().all(|&b| b == 0xa5));
            all.push(m);
            out = &out[len..];
        }
        all
    }

    pub fn request(
        &mut self,
        op: u8,
        key: u32,
        edit: u64,
    ) -> Result<(Event, Vec<Message>), Refusal> {
        let (n, s, c) = (self.n, self.s, self.copy);
        self.event(|t, out| request(t, n, s, c, out, op, key, 0, edit))
    }

    pub fn rewire(
        &mut self,
        key: u32,
        second: u32,
        edit: u64,
    ) -> Result<(Event, Vec<Message>), Refusal> {
        let (n, s, c) = (self.n, self.s, self.copy);
        self.event(|t, out| request(t, n, s, c, out, 3, key, second, edit))
    }

    pub fn message(&mut self, m: &Message) -> Result<(Event, Vec<Message>), Refusal> {
        let mut bytes = [0; 256];
        let len = write_message(self.n, self.s, self.copy, &mut bytes, m).expect("a valid message");
        let (n, s, c) = (self.n, self.s, self.copy);
        self.event(|t, out| message(t, n, s, c, out, &bytes[..len]))
    }

    pub fn recover(&mut self, o: usize, j: usize) -> Result<(Event, Vec<Message>), Refusal> {
        let (n, s, c) = (self.n, self.s, self.copy);
        self.event(|t, out| recover(t, n, s, c, out, o, j))
    }

    pub fn nudge(&mut self, o: usize, j: usize) -> Result<(Event, Vec<Message>), Refusal> {
        let (n, s, c) = (self.n, self.s, self.copy);
        self.event(|t, out| nudge(t, n, s, c, out, o, j))
    }

    pub fn settled(&self, o: usize, j: usize) -> Result<Settled, Refusal> {
        settled(&self.t, self.n, self.s, self.copy, o, j)
    }

    pub fn hand_out(&mut self, room: usize) -> Vec<u16> {
        let mut list = vec![0xa5a5; room];
        let count = hand_out(&mut self.t, self.n, self.s, self.copy, &mut list).unwrap();
        assert!(list[count..].iter().all(|&c| c == 0xa5a5));
        list.truncate(count);
        list
    }
}

/// splitmix64: the same numbers on every run.
pub struct Random(pub u64);

impl Random {
    pub fn next(&mut self) -> u64 {
        self.0 = self.0.wrapping_add(0x9e37_79b9_7f4a_7c15);
        let mut z = self.0;
        z = (z ^ (z >> 30)).wrapping_mul(0xbf58_476d_1ce4_e5b9);
        z = (z ^ (z >> 27)).wrapping_mul(0x94d0_49bb_1331_11eb);
        z ^ (z >> 31)
    }

    pub fn below(&mut self, n: u64) -> u64 {
        self.next() % n
    }

    pub fn chance(&mut self, percent: u64) -> bool {
        self.below(100) < percent
    }
}
