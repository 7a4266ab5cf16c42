//! Hand-out in time linear in the instances: components are found once. It is what the proved hand-out is measured
//! against, with the same checks and the same list.
//!
//! What an instance covers is a prefix of each row, so a prefix is a node of its own: o.j leads to the prefix of each
//! entry, a prefix to its last instance and to the prefix before. That is at most 9 edges for each instance.

use second::table::{COMMITTED, HEAD_LEN, RECORD_LEN};
use second::Refusal;

const MOST: usize = 7 * 64;
const NODES: usize = 2 * MOST;
const EDGES: usize = 9 * MOST;
const NONE: u16 = u16::MAX;

const STATUS_AT: usize = 8;
const DEPS_AT: usize = 26;
const MARK_AT: usize = 40;

pub fn hand_out(
    t: &mut [u8],
    n: usize,
    s: usize,
    copy: usize,
    list: &mut [u16],
) -> Result<usize, Refusal> {
    second::judge_table(t, n, s, copy)?;
    let mut graph = Graph::new(n, s, t);
    for x in 0..n * s {
        if graph.index[x] == NONE {
            graph.visit(t, x);
        }
    }
    let mut waiting = Waiting::new(&graph, t);
    let mut count = 0;
    while count < list.len() {
        let Some((o, j)) = waiting.take_lowest(&graph, t) else { break };
        t[record(s, o, j) + MARK_AT] = 1;
        list[count] = (256 * o + j) as u16;
        count += 1;
    }
    Ok(count)
}

fn record(s: usize, o: usize, j: usize) -> usize {
    HEAD_LEN + RECORD_LEN * (o * s + j - 1)
}

/// Nodes 0..all are the instances, row by row; all.. the prefixes that end at them.
struct Graph {
    n: usize,
    s: usize,
    all: usize,
    index: [u16; NODES],
    low: [u16; NODES],
    component: [u16; NODES],
    /// Nodes by component, what is reached first.
    order: [u16; NODES],
    ordered: usize,
    /// Where each component ends in `order`.
    end: [u16; NODES],
    components: usize,
    open: [u16; NODES],
    opened: usize,
    next: u16,
}

impl Graph {
    fn new(n: usize, s: usize, t: &[u8]) -> Graph {
        debug_assert_eq!(t.len(), record(s, n, 1));
        Graph {
            n,
            s,
            all: n * s,
            index: [NONE; NODES],
            low: [0; NODES],
            component: [NONE; NODES],
            order: [0; NODES],
            ordered: 0,
            end: [0; NODES],
            components: 0,
            open: [0; NODES],
            opened: 0,
            next: 0,
        }
    }

    fn bytes_of(&self, x: usize) -> usize {
        HEAD_LEN + RECORD_LEN * x
    }

    /// The edge's end; an instance has an edge for each owner, a prefix two.
    fn edge(&self, t: &[u8], v: usize, e: usize) -> Option<usize> {
        if v < self.all {
            let at = self.bytes_of(v) + DEPS_AT + 2 * e;
            let entry = u16::from_le_bytes([t[at], t[at + 1]]) as usize;
            return (entry > 0).then(|| self.all + e * self.s + entry - 1);
        }
        match e {
            0 => Some(v - self.all),
            _ => (!(v - self.all).is_multiple_of(self.s)).then(|| v - 1),
        }
    }

    fn edges(&self, v: usize) -> usize {
        if v < self.all {
            self.n
        } else {
            2
        }
    }

    /// Tarjan's search.
    fn visit(&mut self, t: &[u8], v: usize) {
        self.index[v] = self.next;
        self.low[v] = self.next;
        self.next += 1;
        self.open[self.opened] = v as u16;
        self.opened += 1;
        for e in 0..self.edges(v) {
            let Some(w) = self.edge(t, v, e) else { continue };
            if self.index[w] == NONE {
                self.visit(t, w);
                self.low[v] = self.low[v].min(self.low[w]);
            } else if self.component[w] == NONE {
                self.low[v] = self.low[v].min(self.index[w]);
            }
        }
        if self.low[v] == self.index[v] {
            self.close(v);
        }
    }

    /// All that was opened since v is its component.
    fn close(&mut self, v: usize) {
        loop {
            self.opened -= 1;
            let w = self.open[self.opened];
            self.component[w as usize] = self.components as u16;
            self.order[self.ordered] = w;
            self.ordered += 1;
            if w as usize == v {
                break;
            }
        }
        self.end[self.components] = self.ordered as u16;
        self.components += 1;
    }

    fn nodes(&self, c: usize) -> std::ops::Range<usize> {
        let start = if c == 0 { 0 } else { self.end[c - 1] as usize };
        start..self.end[c] as usize
    }
}

/// Components whose instances are settled, and what each still waits for.
struct Waiting {
    /// How many instances of the component have no mark.
    unmarked: [u16; NODES],
    /// How many edges lead to components that are not done.
    pending: [u16; NODES],
    settled: [bool; NODES],
    done: [bool; NODES],
    /// The edges that lead to a component that is not done, as a list for each.
    first: [u16; NODES],
    link: [u16; EDGES],
    from: [u16; EDGES],
    links: usize,
    /// Instances that may be handed out, a bit for each, by number and then owner.
    ready: [u64; MOST / 64],
}

impl Waiting {
    fn new(graph: &Graph, t: &[u8]) -> Waiting {
        let mut waiting = Waiting {
            unmarked: [0; NODES],
            pending: [0; NODES],
            settled: [true; NODES],
            done: [false; NODES],
            first: [NONE; NODES],
            link: [NONE; EDGES],
            from: [0; EDGES],
            links: 0,
            ready: [0; MOST / 64],
        };
        for c in 0..graph.components {
            waiting.enter(graph, t, c);
        }
        waiting
    }

    /// All that the component reaches has been entered before.
    fn enter(&mut self, graph: &Graph, t: &[u8], c: usize) {
        for place in graph.nodes(c) {
            let v = graph.order[place] as usize;
            if v < graph.all {
                let at = graph.bytes_of(v);
                self.settled[c] &= t[at + STATUS_AT] == COMMITTED;
                self.unmarked[c] += (t[at + MARK_AT] == 0) as u16;
            }
            for e in 0..graph.edges(v) {
                let Some(w) = graph.edge(t, v, e) else { continue };
                let to = graph.component[w] as usize;
                if to != c && !self.done[to] {
                    self.settled[c] &= self.settled[to];
                    self.wait_for(c, to);
                }
            }
        }
        if self.settled[c] && self.pending[c] == 0 {
            self.free(graph, t, c);
        }
    }

    fn wait_for(&mut self, c: usize, to: usize) {
        self.pending[c] += 1;
        self.link[self.links] = self.first[to];
        self.from[self.links] = c as u16;
        self.first[to] = self.links as u16;
        self.links += 1;
    }

    /// The component waits for nothing more: its instances are ready, or it is done.
    fn free(&mut self, graph: &Graph, t: &[u8], c: usize) {
        if self.unmarked[c] == 0 {
            return self.finish(graph, t, c);
        }
        for place in graph.nodes(c) {
            let v = graph.order[place] as usize;
            if v < graph.all && t[graph.bytes_of(v) + MARK_AT] == 0 {
                let bit = v % graph.s * graph.n + v / graph.s;
                self.ready[bit / 64] |= 1 << (bit % 64);
            }
        }
    }

    fn finish(&mut self, graph: &Graph, t: &[u8], c: usize) {
        self.done[c] = true;
        let mut link = self.first[c];
        while link != NONE {
            let from = self.from[link as usize] as usize;
            self.pending[from] -= 1;
            if self.pending[from] == 0 && self.settled[from] {
                self.free(graph, t, from);
            }
            link = self.link[link as usize];
        }
    }

    fn take_lowest(&mut self, graph: &Graph, t: &[u8]) -> Option<(usize, usize)> {
        let word = self.ready.iter().position(|&bits| bits != 0)?;
        let bit = 64 * word + self.ready[word].trailing_zeros() as usize;
        self.ready[word] &= self.ready[word] - 1;
        let (o, j) = (bit % graph.n, bit / graph.n + 1);
        let c = graph.component[o * graph.s + j - 1] as usize;
        self.unmarked[c] -= 1;
        if self.unmarked[c] == 0 {
            self.finish(graph, t, c);
        }
        Some((o, j))
    }
}
