//! arbitrary COUNT [SEED]: so many arbitrary inputs to the C calls: any bytes, lengths and arguments, NULL with length
//! 0, tables blank, sound, damaged or of any bytes. Each must end with an answer or a number of the paper, the same as
//! the second program's, with all memory outside the promise as it was.

use compare::both::{second_side, Answer, Call, Lent, LIST, OUT};
use compare::guarded::{c_call, Area, Areas, Input, VALUES};
use compare::random::Random;
use compare::{make, refusal_place, threads, LONGEST, REFUSALS, UNTOUCHED, UNTOUCHED_CODE};
use pumxaqert::{Fields, Instance, Setup};
use second::table::{HEAD_LEN, MARK_AT, RECORD_LEN};
use second::{fields, Refusal};
use std::process::ExitCode;
use std::time::Instant;

/// Inputs that share a seed.
const BATCH: u64 = 1000;
/// What the values hold before a call.
const UNSET: u64 = 0xa5a5_a5a5_a5a5_a5a5;

struct Tester {
    areas: Areas,
    lent: Lent,
    /// A sound table for `setup`, used for some inputs and then made anew.
    base: Vec<u8>,
    setup: Setup,
    answers: u64,
    refusals: [u64; REFUSALS.len()],
}

fn main() -> ExitCode {
    let words: Vec<u64> = std::env::args().skip(1).filter_map(|word| word.parse().ok()).collect();
    let Some(&count) = words.first() else {
        eprintln!("usage: arbitrary COUNT [SEED]");
        return ExitCode::from(2);
    };
    let seed = words.get(1).copied().unwrap_or(1);
    let begun = Instant::now();
    let job = |tester: &mut Tester, batch: u64| {
        let mut random = Random(seed.wrapping_add(batch));
        for i in 0..BATCH.min(count - BATCH * batch) {
            tester.one(&mut random, i).map_err(|wrong| (seed.wrapping_add(batch), i, wrong))?;
        }
        Ok(())
    };
    match threads::over_all(count.div_ceil(BATCH), Tester::new, job) {
        Ok(testers) => report(count, &testers, begun),
        Err((seed, i, wrong)) => {
            println!("input {i}: {wrong}\nagain: arbitrary {} {seed}", i + 1);
            ExitCode::FAILURE
        }
    }
}

fn report(count: u64, testers: &[Tester], begun: Instant) -> ExitCode {
    let total = |of: &dyn Fn(&Tester) -> u64| testers.iter().map(of).sum::<u64>();
    let answers = total(&|tester| tester.answers);
    println!("{answers:>12}  answers");
    let refusals: Vec<u64> =
        (0..REFUSALS.len()).map(|at| total(&|tester| tester.refusals[at])).collect();
    for (number, count) in REFUSALS.iter().zip(&refusals) {
        println!("{count:>12}  refusal {number}");
    }
    eprintln!("{:.1} seconds", begun.elapsed().as_secs_f64());
    if answers == 0 || refusals.contains(&0) {
        println!("an answer or a refusal was never given");
        return ExitCode::FAILURE;
    }
    println!("{count} arbitrary inputs: no difference, nothing touched outside the promise");
    ExitCode::SUCCESS
}

impl Tester {
    fn new() -> Tester {
        let most = HEAD_LEN + RECORD_LEN * 7 * 64 + 1;
        Tester {
            areas: Areas {
                table: Area::new(most, 0x5a),
                out: Area::new(OUT, 0x5a),
                list: Area::new(LIST, 0x5a5a),
                bytes: Area::new(64, 0x5a),
                values: Area::new(VALUES, 0x5a5a),
            },
            lent: Lent { out: [UNTOUCHED; OUT], list: [UNTOUCHED_CODE; LIST] },
            base: Vec::new(),
            setup: Setup { n: 0, s: 0, copy: 0 },
            answers: 0,
            refusals: [0; REFUSALS.len()],
        }
    }

    fn one(&mut self, random: &mut Random, i: u64) -> Result<(), String> {
        if i.is_multiple_of(10) {
            self.new_base(random);
        }
        let setup = some_setup(random, self.setup);
        let mut table = some_table(random, self.setup, &self.base);
        let input = some_input(random, setup);
        let bytes = some_bytes(random, self.setup, &self.base);
        let room = random.pick(&[0, 255, 256, 256, 256, 257, OUT]);
        let places = random.pick(&[0, 1, 3, 20, LIST]);
        self.lend(random, &table, room, places, &bytes, input.values());
        let before = table.clone();
        let (number, values) = self.second(setup, input, room, places, &bytes, &mut table);
        let got = c_call(setup, input, &mut self.areas);
        let held = self
            .compare(input, (number, &values), got, &table)
            .and_then(|()| self.promise(setup, input, got, &before))
            .and_then(|()| match self.areas.bytes.contents() == bytes {
                true => Ok(()),
                false => Err("the message was touched".into()),
            });
        if let Err(wrong) = held {
            let lengths = [before.len(), room, places, bytes.len()];
            let seen = self.areas.values.contents();
            return Err(format!(
                "{wrong}\n  {input:?} with {setup:?}; lengths of table, room, list, bytes: {lengths:?}\n  \
                 second:  {number} {values:?}\n  library: {got} {seen:?}"
            ));
        }
        match number {
            0 => self.answers += 1,
            _ if matches!(input, Input::OnTable(Call::Part(..))) => self.answers += 1,
            _ => self.refusals[refusal_place(number as u8)] += 1,
        }
        Ok(())
    }

    fn new_base(&mut self, random: &mut Random) {
        let n = random.pick(&[3, 5, 7]);
        let s = if random.chance(2) { random.between(4, 64) } else { random.between(1, 3) };
        self.setup = Setup { n, s, copy: random.below(n) };
        self.base = make::blank(self.setup);
        let filled = random.pick(&[0, 50, 100]);
        make::fill(random, self.setup, &mut self.base, filled);
    }

    fn lend(
        &mut self,
        random: &mut Random,
        table: &[u8],
        room: usize,
        places: usize,
        bytes: &[u8],
        values: usize,
    ) {
        self.lent.out = [UNTOUCHED; OUT];
        self.lent.list = [UNTOUCHED_CODE; LIST];
        self.areas.table.set(table, random.chance(50));
        self.areas.out.set(&self.lent.out[..room], random.chance(50));
        self.areas.list.set(&self.lent.list[..places], random.chance(50));
        self.areas.bytes.set(bytes, random.chance(50));
        self.areas.values.set(&[UNSET; VALUES][..values], false);
    }

    /// The second program's number and values, as the C call would hand them back.
    fn second(
        &mut self,
        setup: Setup,
        input: Input,
        room: usize,
        places: usize,
        bytes: &[u8],
        table: &mut [u8],
    ) -> (u64, Vec<u64>) {
        let Setup { n, s, copy } = setup;
        let call = match input {
            Input::Read => {
                return match second::read_message(n, s, copy, bytes) {
                    Ok(m) => (0, [&fields::fields(&m)[..], &[0]].concat()),
                    Err(refusal) => refused(input, refusal),
                }
            }
            Input::Write(f) => {
                return match fields::write(n, s, copy, &mut self.lent.out[..room], &f) {
                    Ok(written) => (0, vec![written as u64, 0]),
                    Err(refusal) => refused(input, refusal),
                }
            }
            Input::Message => Call::Message(bytes),
            Input::OnTable(Call::HandOut(_)) => Call::HandOut(places),
            Input::OnTable(call) => call,
        };
        let wide = |values: [usize; 4]| values.map(|value| value as u64).to_vec();
        match second_side(setup, room, call, table, &mut self.lent) {
            Answer::Refused(refusal) => refused(input, refusal),
            Answer::Done => (0, vec![]),
            Answer::Part(at, length) => (at as u64, vec![length as u64]),
            Answer::Event(o, j, written) => (0, wide([o, j, written, 0])),
            Answer::Settled(op, key, second, edit) => (0, vec![1, op, key, second, edit]),
            Answer::Waits(o, j) => (0, vec![0, o as u64, j as u64, 0, 0]),
            Answer::Codes(codes) => (0, vec![codes as u64]),
        }
    }

    /// Everything is as the second program has it.
    fn compare(
        &self,
        input: Input,
        (number, values): (u64, &[u64]),
        got: u64,
        table: &[u8],
    ) -> Result<(), String> {
        let areas = &self.areas;
        let room = areas.out.contents().len();
        let places = areas.list.contents().len();
        // A message alone has no table, and what is written to one side's copy of it is not compared.
        let on_table = !matches!(input, Input::Read | Input::Write(_));
        let wrong = if got != number {
            "numbers differ"
        } else if areas.values.contents() != values {
            "values differ"
        } else if areas.out.contents() != &self.lent.out[..room] {
            "outgoing bytes differ"
        } else if areas.list.contents() != &self.lent.list[..places] {
            "lists differ"
        } else if on_table && areas.table.contents() != table {
            "tables differ"
        } else {
            return Ok(());
        };
        Err(wrong.into())
    }

    /// What is promised of lent memory, whatever the second program does.
    fn promise(&self, setup: Setup, input: Input, got: u64, before: &[u8]) -> Result<(), String> {
        let areas = &self.areas;
        if !areas.guards_hold() {
            return Err("memory beside a lent area was touched".into());
        }
        let values = areas.values.contents();
        let is_part = matches!(input, Input::OnTable(Call::Part(..)));
        if !is_part && got != 0 && !REFUSALS.iter().any(|&number| number as u64 == got) {
            return Err("a number that is not the paper's".into());
        }
        let refused = !is_part && got != 0;
        let told = input.values() - input.has_offset() as usize;
        if refused && values[..told].iter().any(|&value| value != 0) {
            return Err("a refusal with values".into());
        }
        if values[told..].iter().any(|&offset| (offset != 0) != (got == 35)) {
            return Err("an offset without a wrong field, or the other way round".into());
        }
        let (written, codes) = match input {
            _ if refused => (0, 0),
            Input::OnTable(Call::HandOut(_)) => (0, values[0] as usize),
            Input::Write(_) => (values[0] as usize, 0),
            Input::OnTable(Call::Request(..) | Call::Recover(..) | Call::Nudge(..))
            | Input::Message => (values[2] as usize, 0),
            _ => (0, 0),
        };
        if areas.out.contents()[written..].iter().any(|&byte| byte != UNTOUCHED) {
            return Err("the room was touched after the written bytes".into());
        }
        if areas.list.contents()[codes..].iter().any(|&code| code != UNTOUCHED_CODE) {
            return Err("the list was touched after the listed codes".into());
        }
        self.table_promise(setup, input, refused, before)
    }

    /// Which bytes of the table may have changed: none, all, one record's, or the listed marks.
    fn table_promise(
        &self,
        setup: Setup,
        input: Input,
        refused: bool,
        before: &[u8],
    ) -> Result<(), String> {
        let mut kept = before.to_vec();
        let table = self.areas.table.contents();
        let values = self.areas.values.contents();
        match input {
            _ if refused => {}
            Input::OnTable(Call::Blank) => return Ok(()),
            Input::OnTable(Call::HandOut(_)) => {
                for &code in &self.areas.list.contents()[..values[0] as usize] {
                    let Instance { owner, number } = Instance::of_code(code);
                    kept[make::place(setup, owner, number) + MARK_AT] = 1;
                }
            }
            Input::OnTable(Call::Request(..) | Call::Recover(..) | Call::Nudge(..))
            | Input::Message => {
                let at = make::place(setup, values[0] as usize, values[1] as usize);
                kept[at..at + RECORD_LEN].copy_from_slice(&table[at..at + RECORD_LEN]);
            }
            _ => {}
        }
        if kept != table {
            return Err("the table changed outside what the call may change".into());
        }
        Ok(())
    }
}

/// A refusal's number and values: all 0, but for the offset.
fn refused(input: Input, refusal: Refusal) -> (u64, Vec<u64>) {
    let mut values = vec![0; input.values()];
    if let Some(last) = values.last_mut().filter(|_| input.has_offset()) {
        *last = refusal.offset as u64;
    }
    (refusal.number as u64, values)
}

/// Mostly the table's; now and then any numbers.
fn some_setup(random: &mut Random, mut setup: Setup) -> Setup {
    let odd = [0, 1, 2, 3, 4, 5, 7, 8, 64, 65, 255, 256, 259, 1 << 32, usize::MAX];
    match random.below(40) {
        0 => setup.n = random.pick(&odd),
        1 => setup.s = random.pick(&odd),
        2 => setup.copy = random.pick(&odd),
        3 => setup = Setup { n: random.pick(&odd), s: random.pick(&odd), copy: random.pick(&odd) },
        _ => {}
    }
    setup
}

fn some_table(random: &mut Random, setup: Setup, base: &[u8]) -> Vec<u8> {
    let mut table = base.to_vec();
    match random.below(20) {
        0 => table.clear(),
        1 => table.truncate(random.below(base.len())),
        2 => table.push(0),
        3 => table.iter_mut().for_each(|byte| *byte = random.word() as u8),
        4..7 => make::damage(random, &mut table),
        7..10 => {
            let at = make::place(setup, random.below(setup.n), random.between(1, setup.s));
            make::damage(random, &mut table[at..at + MARK_AT + 3]);
        }
        _ => {}
    }
    table
}

fn some_bytes(random: &mut Random, setup: Setup, base: &[u8]) -> Vec<u8> {
    let mut bytes = [0; LONGEST];
    let length = make::bytes(&make::message(random, setup, base), &mut bytes);
    let mut bytes = bytes[..length].to_vec();
    match random.below(10) {
        0 => bytes.clear(),
        1 => bytes = (0..random.below(64)).map(|_| random.word() as u8).collect(),
        2 | 3 => make::damage(random, &mut bytes),
        4 => bytes.truncate(random.below(length)),
        5 => bytes.push(0),
        _ => {}
    }
    bytes
}

fn some_input(random: &mut Random, setup: Setup) -> Input {
    let odd = random.chance(10);
    let mut named = |most: usize| match odd {
        true => random.pick(&[0, most, most.wrapping_add(1), 256, 1 << 16, usize::MAX]),
        false => random.below(most.clamp(1, 64)),
    };
    let (o, j) = (named(setup.n), named(setup.s).wrapping_add(1));
    match random.below(14) {
        0 => Input::OnTable(Call::Blank),
        1 => Input::OnTable(Call::Judge),
        2 => Input::OnTable(Call::Part(o, j)),
        3 => {
            let op = random.pick(&[0, 1, 2, 2, 3, 3, 3, 258, usize::MAX]);
            let second = random.pick(&[0, 0, 0, 1, 2, 3, 4, u32::MAX]);
            Input::OnTable(Call::Request(op, random.below(4) as u32, second, random.word()))
        }
        4 | 5 => Input::OnTable(Call::Recover(o, j)),
        6 => Input::OnTable(Call::Nudge(o, j)),
        7 => Input::OnTable(Call::Settled(o, j)),
        8 => Input::OnTable(Call::HandOut(0)),
        9 => Input::Read,
        10 => Input::Write(some_fields(random, setup)),
        _ => Input::Message,
    }
}

/// Fields near a message's, some of them out of every place.
fn some_fields(random: &mut Random, setup: Setup) -> Fields {
    let n = setup.n.clamp(1, 7);
    let good = Setup { n: 7, s: 3, copy: random.below(n) };
    let m = make::message(random, good, &make::blank(good));
    let mut f = fields::fields(&m);
    if random.chance(50) {
        let at = random.below(f.len());
        f[at] = random.pick(&[0, 1, 2, 3, 7, 8, 64, 65, 255, 256, 1 << 16, 1 << 32, u64::MAX]);
    }
    f
}
