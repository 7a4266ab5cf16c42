//! Links between the copies. On its way to its link a message is lost, repeated or overtaken as a seed has it; a link
//! hands its bytes over in order, cut anywhere.

use pumxaqert::{Stream, ROOM};
use std::collections::BTreeMap;

/// From one copy to another.
pub type Link = (usize, usize);

/// splitmix64: the same numbers on every run.
pub struct Random {
    state: u64,
}

impl Random {
    pub fn new(seed: u64) -> Random {
        Random { state: seed }
    }

    pub fn below(&mut self, n: u64) -> u64 {
        self.state = self.state.wrapping_add(0x9e37_79b9_7f4a_7c15);
        let mut z = self.state;
        z = (z ^ (z >> 30)).wrapping_mul(0xbf58_476d_1ce4_e5b9);
        z = (z ^ (z >> 27)).wrapping_mul(0x94d0_49bb_1331_11eb);
        (z ^ (z >> 31)) % n
    }
}

pub struct Network {
    random: Random,
    flying: Vec<(Link, Vec<u8>)>,
    /// Bytes on each link that has some.
    wires: BTreeMap<Link, Vec<u8>>,
    pub lost: usize,
    pub pieces: usize,
}

/// No message begins with it.
const STRAY: u8 = 0;

impl Network {
    pub fn new(seed: u64) -> Network {
        let (flying, wires) = (Vec::new(), BTreeMap::new());
        Network { random: Random::new(seed), flying, wires, lost: 0, pieces: 0 }
    }

    pub fn below(&mut self, n: u64) -> u64 {
        self.random.below(n)
    }

    /// Takes the messages of one event of this copy; one in five is lost. What an event wrote is a short stream too, so
    /// that the library says where its messages end; the third byte of each is its destination.
    pub fn send(&mut self, from: usize, bytes: &[u8]) {
        let mut buf = [0; ROOM];
        let mut stream = Stream::begin(&mut buf).expect("room enough");
        stream.take(bytes).expect("a stream has no stop before its first byte");
        for message in stream.messages() {
            if self.below(5) == 0 {
                self.lost += 1;
            } else {
                self.flying.push(((from, message[2] as usize), message.to_vec()));
            }
        }
    }

    /// One of those in flight gets onto its link; one in ten will do so again later. Now and then a byte that nobody sent
    /// gets there before it.
    fn load(&mut self) {
        if self.flying.is_empty() {
            return;
        }
        let at = self.below(self.flying.len() as u64) as usize;
        let (link, message) = match self.below(10) {
            0 => self.flying[at].clone(),
            _ => self.flying.swap_remove(at),
        };
        let stray = self.below(60) == 0;
        let wire = self.wires.entry(link).or_default();
        wire.extend(stray.then_some(STRAY));
        wire.extend(message);
    }

    /// The next bytes of some link.
    pub fn deliver(&mut self) -> Option<(Link, Vec<u8>)> {
        self.load();
        if self.wires.is_empty() {
            return None;
        }
        let at = self.below(self.wires.len() as u64) as usize;
        let &link = self.wires.keys().nth(at).expect("one of them");
        let mut piece = self.wires.remove(&link).expect("it has bytes");
        let rest = piece.split_off(1 + self.below(piece.len() as u64) as usize);
        if !rest.is_empty() {
            self.wires.insert(link, rest);
        }
        self.pieces += 1;
        Some((link, piece))
    }

    /// The link is gone, with what is on it. Another begins where it was.
    pub fn drop_link(&mut self, link: Link) {
        self.wires.remove(&link);
    }
}
