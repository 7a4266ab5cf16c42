//! Demand 3, watched over the saved tables of a run in which nothing is damaged or invented. Which commands interfere is
//! asked of 4/12 and 5/12, whatever the copies themselves go by.

use second::rules::{interfere, Command, Deps, NO_OP};
use second::table::{Record, COMMITTED};

/// An instance, and what it was committed with.
pub type Chosen = (usize, usize, Command, Deps);

pub struct Demand {
    n: usize,
    s: usize,
    requested: Vec<Option<Command>>,
    chosen: Vec<Option<(Command, Deps)>>,
    /// For each copy and instance, how many marks that copy had saved before this one.
    order: Vec<Vec<Option<usize>>>,
    marks: Vec<usize>,
}

impl Demand {
    pub fn new(n: usize, s: usize) -> Demand {
        let all = n * s;
        Demand {
            n,
            s,
            requested: vec![None; all],
            chosen: vec![None; all],
            order: vec![vec![None; all]; n],
            marks: vec![0; n],
        }
    }

    fn place(&self, o: usize, j: usize) -> usize {
        o * self.s + j - 1
    }

    pub fn requested(&mut self, o: usize, j: usize, command: Command) {
        let at = self.place(o, j);
        self.requested[at] = Some(command);
    }

    /// A record was saved over another.
    pub fn saved(
        &mut self,
        o: usize,
        j: usize,
        before: &Record,
        after: &Record,
    ) -> Result<(), String> {
        let (was, is) = (&before.own, &after.own);
        if was.status == COMMITTED {
            let kept = is.status == COMMITTED && (was.command, was.deps) == (is.command, is.deps);
            if !kept || after.mark < before.mark {
                return Err(format!("{o}.{j} was committed and changed: {was:?}, now {is:?}"));
            }
        } else if is.status == COMMITTED {
            self.committed(o, j, is.command, is.deps)?;
        }
        Ok(())
    }

    fn committed(
        &mut self,
        o: usize,
        j: usize,
        command: Command,
        deps: Deps,
    ) -> Result<(), String> {
        let at = self.place(o, j);
        match self.chosen[at] {
            Some(chosen) if chosen == (command, deps) => return Ok(()),
            Some(chosen) => {
                return Err(format!("{o}.{j} committed as {chosen:?} and as {:?}", (command, deps)))
            }
            None => {}
        }
        if command.op != NO_OP && self.requested[at] != Some(command) {
            return Err(format!(
                "{o}.{j} committed {command:?}, requested {:?}",
                self.requested[at]
            ));
        }
        for p in 0..self.n {
            for i in 1..=self.s {
                let Some((other, its_deps)) = self.chosen[self.place(p, i)] else { continue };
                let covered = i <= deps[p] as usize || j <= its_deps[o] as usize;
                if interfere(&command, &other) && !covered {
                    return Err(format!(
                        "{o}.{j} and {p}.{i} interfere, and neither covers the other"
                    ));
                }
            }
        }
        self.chosen[at] = Some((command, deps));
        Ok(())
    }

    /// Copy q saved the mark of o.j.
    pub fn marked(&mut self, q: usize, o: usize, j: usize) -> Result<(), String> {
        let at = self.place(o, j);
        if self.order[q][at].is_some() {
            return Err(format!("copy {q} handed {o}.{j} out twice"));
        }
        let Some((command, _)) = self.chosen[at] else {
            return Err(format!("copy {q} handed {o}.{j} out, which is not committed"));
        };
        self.order[q][at] = Some(self.marks[q]);
        self.marks[q] += 1;
        for p in (0..self.n).filter(|&p| p != q) {
            let Some(there) = self.order[p][at] else { continue };
            for other in 0..self.chosen.len() {
                let Some((its_command, _)) = self.chosen[other] else { continue };
                // All that q has marked, it marked before o.j.
                let earlier_here = other != at && self.order[q][other].is_some();
                let later_there = self.order[p][other].is_some_and(|its| its > there);
                if earlier_here && later_there && interfere(&command, &its_command) {
                    let (po, pj) = (other / self.s, other % self.s + 1);
                    return Err(format!(
                        "{o}.{j} and {po}.{pj} in other orders at copies {q} and {p}"
                    ));
                }
            }
        }
        Ok(())
    }

    /// All that was committed.
    pub fn chosen(&self) -> impl Iterator<Item = Chosen> + '_ {
        let all = self.chosen.iter().enumerate();
        all.filter_map(|(at, its)| {
            its.map(|(command, deps)| (at / self.s, at % self.s + 1, command, deps))
        })
    }

    /// How many marks copy q has saved.
    pub fn handed_out(&self, q: usize) -> usize {
        self.marks[q]
    }
}

#[cfg(test)]
mod tests {
    use super::*;
    use second::table::Vote;

    const EDIT: Command = Command { op: 2, key: 7, second: 0, edit: 100 };

    fn committed(command: Command, deps: [u16; 3]) -> Record {
        let mut all = [0; 7];
        all[..3].copy_from_slice(&deps);
        let own = Vote { voted: 0, status: COMMITTED, command, deps: all };
        Record { own, ..Record::default() }
    }

    /// 0.1 and 1.1 of N = 3, both requested and committed, 0.1 with these dependencies.
    fn two(deps: [u16; 3]) -> Result<Demand, String> {
        two_of([EDIT; 2], deps)
    }

    fn two_of([first, second]: [Command; 2], deps: [u16; 3]) -> Result<Demand, String> {
        let mut demand = Demand::new(3, 2);
        demand.requested(0, 1, first);
        demand.requested(1, 1, second);
        let blank = Record::default();
        demand.saved(0, 1, &blank, &committed(first, deps))?;
        demand.saved(1, 1, &blank, &committed(second, [0; 3]))?;
        Ok(demand)
    }

    #[test]
    fn two_commands() {
        let mut demand = two([0, 1, 0]).unwrap();
        let blank = Record::default();
        assert!(demand.saved(0, 1, &blank, &committed(EDIT, [0, 1, 0])).is_ok());
        assert!(demand.saved(0, 1, &blank, &committed(EDIT, [0; 3])).is_err());
        let no_op = committed(Command::default(), [0, 1, 0]);
        assert!(demand.saved(0, 1, &blank, &no_op).is_err());
        assert!(demand.saved(0, 1, &committed(EDIT, [0, 1, 0]), &no_op).is_err());
        assert!(demand.saved(0, 1, &committed(EDIT, [0, 1, 0]), &blank).is_err());
    }

    #[test]
    fn never_requested() {
        let mut demand = Demand::new(3, 2);
        let blank = Record::default();
        assert!(demand.saved(2, 1, &blank, &committed(EDIT, [0; 3])).is_err());
        assert!(demand.saved(2, 1, &blank, &committed(Command::default(), [0; 3])).is_ok());
    }

    #[test]
    fn neither_covers() {
        assert!(two([0; 3]).is_err());
    }

    #[test]
    fn reads_in_any_order() {
        let read = Command { op: 1, ..EDIT };
        let marks = [(0, 1), (0, 0), (1, 0), (1, 1)];
        let mut demand = two_of([read; 2], [0; 3]).unwrap();
        assert!(marks.iter().all(|&(q, o)| demand.marked(q, o, 1).is_ok()));
        for commands in [[read, EDIT], [EDIT, read]] {
            assert!(two_of(commands, [0; 3]).is_err());
            let mut demand = two_of(commands, [0, 1, 0]).unwrap();
            assert!(marks[..3].iter().all(|&(q, o)| demand.marked(q, o, 1).is_ok()));
            assert!(demand.marked(1, 1, 1).is_err(), "the other way round than at 0");
        }
    }

    /// A rewire is put in order with what touches either of its keys, and with nothing else.
    #[test]
    fn rewires() {
        let rewire = |key, second| Command { op: 3, key, second, edit: 100 };
        for (other, meets) in [(rewire(7, 9), true), (rewire(1, 7), true), (rewire(1, 9), false)] {
            for commands in [[EDIT, other], [other, EDIT]] {
                assert_eq!(two_of(commands, [0; 3]).is_err(), meets);
                let mut demand = two_of(commands, [0, 1, 0]).unwrap();
                let marks = [(0, 1), (0, 0), (1, 0)];
                assert!(marks.iter().all(|&(q, o)| demand.marked(q, o, 1).is_ok()));
                assert_eq!(demand.marked(1, 1, 1).is_err(), meets);
            }
        }
        // The keys are part of what is committed.
        let mut demand = Demand::new(3, 2);
        demand.requested(0, 1, rewire(7, 8));
        let blank = Record::default();
        assert!(demand.saved(0, 1, &blank, &committed(rewire(7, 9), [0; 3])).is_err());
        assert!(demand.saved(0, 1, &blank, &committed(rewire(7, 8), [0; 3])).is_ok());
        assert!(demand.saved(0, 1, &blank, &committed(rewire(7, 9), [0; 3])).is_err());
    }

    #[test]
    fn other_orders() {
        let mut demand = two([0, 1, 0]).unwrap();
        let marks = [(0, 1), (0, 0), (1, 1), (1, 0), (2, 0)];
        assert!(marks.iter().all(|&(q, o)| demand.marked(q, o, 1).is_ok()));
        assert!(demand.marked(2, 1, 1).is_err(), "the other way round than at 0 and 1");
        assert!(demand.marked(0, 1, 1).is_err(), "twice");
        assert!(demand.marked(0, 2, 1).is_err(), "not committed");
    }
}
