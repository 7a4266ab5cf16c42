//! The places that runs are to reach, and how often they did.

use crate::refusal_place;

/// A name for each place, and its words in the account.
macro_rules! places {
    ($($name:ident $words:literal,)*) => {
        #[derive(Clone, Copy, Debug, PartialEq, Eq)]
        pub enum Place { $($name,)* }
        pub const NAMES: &[&str] = &[$($words,)*];
    };
}

places! {
    Requested "request",
    RequestedOver "request that saw interfering commands",
    RequestPassed "request: a read that passed over a read of its key",
    RequestedRewire "request of a rewire",
    MetBySecond "PreAccept or request that a second key alone led to another command",
    PreAcceptAsReceived "PreAccept: nothing added, status 2",
    PreAcceptAdded "PreAccept: dependencies added, status 1",
    PreAcceptPassed "PreAccept: a read that passed over a read of its key",
    PreAcceptRepeated "PreAccept repeated: stored dependencies again",
    PreAcceptAfterAccept "PreAccept where that ballot is accepted: nothing",
    PreAcceptWaits "PreAcceptOK collected, waits",
    FastCommit "PreAcceptOK: fast commit",
    SlowDiffering "PreAcceptOK at ballot 0: two differ, accepting",
    SlowAll "PreAcceptOK at ballot 0: all 2F alike but not as sent, accepting",
    HigherAccepting "PreAcceptOK at a higher ballot: accepting",
    AcceptTaken "Accept: stored",
    AcceptRepeated "Accept repeated: stored again",
    AcceptWaits "AcceptOK collected, waits",
    AcceptCommits "AcceptOK: commit",
    AcceptCommitsNoOp "AcceptOK: commit of a no-op",
    CommitTaken "Commit: stored",
    CommitWhileLeading "Commit: stored by a copy in a phase",
    CommitRepeated "Commit repeated: nothing",
    PrepareAnswered "Prepare: PrepareOK",
    PrepareVoted "Prepare where that ballot is voted: nothing",
    PrepareWaits "PrepareOK collected, waits",
    DecideNoOp "PrepareOK decides: a no-op afresh",
    DecideAccepted "PrepareOK decides: what was accepted",
    DecideMatching "PrepareOK decides: F of status 2 without the owner",
    DecideAfresh "PrepareOK decides: a command afresh",
    AfreshPassed "PrepareOK decides: a read afresh, which passed over a read of its key",
    NackTaken "Nack: joined is raised",
    Nacked "Nack sent",
    CommitBack "Commit sent back",
    NothingFits "a reply that fits nothing",
    Recovered "recover",
    RecoveredAgain "recover of what had a ballot above 0",
    NudgeCommit "nudge: Commit",
    NudgePrepare "nudge: Prepare",
    NudgePreAccept "nudge: PreAccept",
    NudgeAccept "nudge: Accept",
    NudgeAccepting "nudge: goes to accepting",
    Settled "settled",
    SettledNoOp "settled: a no-op",
    SettledRewire "settled: a rewire",
    WaitsForItself "not settled: names itself",
    WaitsForOther "not settled: names another",
    ListNoRoom "hand-out: no room",
    ListFull "hand-out: stops at a full list",
    ListAll "hand-out: none is left",
    ListCycle "hand-out: a cycle",
    ListNoOp "hand-out: a no-op",
    ListRewire "hand-out: a rewire",
    Lost "message lost",
    Repeated "message repeated",
    CutBeforeSave "cut before the save",
    CutBeforeSend "cut between save and sending",
    CutBetweenMarks "cut between two saves of marks",
    MessageDamaged "damaged message: refused",
    MessageInvented "damaged message: valid",
    TableDamaged "damaged table: not sound",
    TableOther "damaged table: sound",
    Drained "run drained: all committed and handed out alike",
    Refused1 "refusal 1",
    Refused2 "refusal 2",
    Refused4 "refusal 4",
    Refused5 "refusal 5",
    Refused6 "refusal 6",
    Refused7 "refusal 7",
    Refused8 "refusal 8",
    Refused9 "refusal 9",
    Refused10 "refusal 10",
    Refused11 "refusal 11",
    Refused31 "refusal 31",
    Refused32 "refusal 32",
    Refused33 "refusal 33",
    Refused34 "refusal 34",
    Refused35 "refusal 35",
}

#[derive(Clone)]
pub struct Places {
    counts: Vec<u64>,
    pub calls: u64,
    /// How often a copy went over to another interference.
    pub went_over: u64,
    /// Runs by N (3, 5, 7) and by S.
    pub by_n: [u64; 8],
    pub by_s: [u64; 65],
}

impl Default for Places {
    fn default() -> Places {
        let counts = vec![0; NAMES.len()];
        Places { counts, calls: 0, went_over: 0, by_n: [0; 8], by_s: [0; 65] }
    }
}

impl Places {
    pub fn reach(&mut self, place: Place) {
        self.counts[place as usize] += 1;
    }

    pub fn reached(&self, place: Place) -> u64 {
        self.counts[place as usize]
    }

    pub fn refused(&mut self, number: u8) {
        self.counts[Place::Refused1 as usize + refusal_place(number)] += 1;
    }

    pub fn add(&mut self, other: &Places) {
        let sum = |ours: &mut [u64], theirs: &[u64]| {
            ours.iter_mut().zip(theirs).for_each(|(a, b)| *a += b);
        };
        sum(&mut self.counts, &other.counts);
        sum(&mut self.by_n, &other.by_n);
        sum(&mut self.by_s, &other.by_s);
        self.calls += other.calls;
        self.went_over += other.went_over;
    }

    pub fn print(&self) {
        for (name, count) in NAMES.iter().zip(&self.counts) {
            println!("{count:>12}  {name}");
        }
        println!("{:>12}  calls compared", self.calls);
        if self.went_over > 0 {
            println!("{:>12}  times a copy went over to the other interference", self.went_over);
        }
        let [n3, n5, n7] = [self.by_n[3], self.by_n[5], self.by_n[7]];
        let sizes = self.by_s.iter().filter(|&&runs| runs > 0).count();
        println!("runs with N = 3, 5, 7: {n3}, {n5}, {n7}; with {sizes} different S");
    }

    /// Places that were never reached.
    pub fn missing(&self) -> Vec<&'static str> {
        let empty = |(name, &count)| (count == 0).then_some(name);
        NAMES.iter().copied().zip(&self.counts).filter_map(empty).collect()
    }
}
