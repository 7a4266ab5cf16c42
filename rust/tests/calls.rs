//! The paper's examples and every refusal, through the wrapper.

use pumxaqert::*;

const EDIT: Command = Command::write(7, 100);
const REWIRE: Command = Command::rewire(7, 8, 100);
const FIRST: Instance = Instance { owner: 0, number: 1 };

fn blank(setup: Setup) -> Vec<u8> {
    let mut table = vec![0xff; setup.table_len().unwrap()];
    setup.blank(&mut table).unwrap();
    table
}

fn setup(copy: usize) -> Setup {
    Setup { n: 3, s: 4, copy }
}

fn deps(first: [u16; 3]) -> Deps {
    let mut all = [0; 7];
    all[..3].copy_from_slice(&first);
    all
}

fn ok(from: u8, first: [u16; 3]) -> Message {
    let body = Body::PreAcceptOk { deps: deps(first) };
    Message { from, to: 0, owner: 0, number: 1, ballot: 0, body }
}

fn commit(owner: u8, to: u8, first: [u16; 3]) -> Message {
    let body = Body::Commit { command: EDIT, deps: deps(first) };
    Message { from: (to + 1) % 3, to, owner, number: 1, ballot: 0, body }
}

fn hear(s: Setup, table: &mut [u8], message: &Message) -> Result<(Event, Vec<u8>), Refusal> {
    let (mut bytes, mut out) = ([0; ROOM], [0xa5; ROOM]);
    let length = s.write_message(&mut bytes, message)?;
    assert_eq!(s.read_message(&bytes[..length]), Ok(*message));
    s.message(table, &mut out, &bytes[..length]).map(|e| (e, out[..e.written].to_vec()))
}

/// W1 and W2: 74 bytes, then one PreAcceptOK commits, and the Commit's bytes follow.
#[test]
fn request_and_commit() {
    let s = setup(0);
    let mut table = blank(s);
    let mut out = [0xa5; 300];
    let event = s.request(&mut table, &mut out, EDIT).unwrap();
    assert_eq!(event, Event { instance: FIRST, written: 74 });
    let mut first = [0; 37];
    first[..16].copy_from_slice(&[1, 0, 1, 0, 1, 0, 0, 0, 0, 0, 2, 7, 0, 0, 0, 100]);
    assert_eq!(out[..37], first);
    first[2] = 2;
    assert_eq!(out[37..74], first);
    assert!(out[74..].iter().all(|&byte| byte == 0xa5));
    let whole = s.table_len().unwrap();
    let (start, length) = s.part(&table, FIRST);
    assert_eq!(start + length * 12, whole, "a head, then the records of 3 copies and 4 numbers");
    assert_eq!(s.settled(&table, FIRST), Ok(Settling::Waits(FIRST)));

    let (event, sent) = hear(s, &mut table, &ok(1, [0; 3])).unwrap();
    assert_eq!((event.instance, sent.len(), sent[0]), (FIRST, 74, 5));
    assert_eq!(s.settled(&table, FIRST), Ok(Settling::Settled(EDIT)));
    assert_eq!(s.judge(&table), Ok(()));
}

/// A rewire in its own kinds: PreAccept 9, Commit 11, and the second key in what is settled. Then a write of either key
/// depends on it.
#[test]
fn rewire() {
    let s = setup(0);
    let mut table = blank(s);
    let mut out = [0xa5; 300];
    let event = s.request(&mut table, &mut out, REWIRE).unwrap();
    assert_eq!(event, Event { instance: FIRST, written: 82 });
    let mut first = [0; 41];
    first[..20].copy_from_slice(&[9, 0, 1, 0, 1, 0, 0, 0, 0, 0, 3, 7, 0, 0, 0, 8, 0, 0, 0, 100]);
    assert_eq!(out[..41], first);
    let body = Body::PreAccept { command: REWIRE, deps: [0; 7] };
    let message = Message { from: 0, to: 1, owner: 0, number: 1, ballot: 0, body };
    assert_eq!(setup(1).read_message(&out[..41]), Ok(message));
    let (_, sent) = hear(s, &mut table, &ok(1, [0; 3])).unwrap();
    assert_eq!((sent.len(), sent[0]), (82, 11));
    assert_eq!(s.settled(&table, FIRST), Ok(Settling::Settled(REWIRE)));
    for (key, entry) in [(7, 1), (8, 1), (0, 0)] {
        let mut table = table.clone();
        let event = s.request(&mut table, &mut out, Command::write(key, 5)).unwrap();
        let sent = setup(1).read_message(&out[..event.written / 2]).unwrap();
        assert!(matches!(sent.body, Body::PreAccept { deps, .. } if deps[0] == entry));
    }
}

/// W4: answers that differ go to accepting with their join.
#[test]
fn slow_path() {
    let s = setup(0);
    let mut table = blank(s);
    s.request(&mut table, &mut [0; ROOM], EDIT).unwrap();
    assert_eq!(hear(s, &mut table, &ok(1, [0, 1, 0])).unwrap().1, []);
    let (_, sent) = hear(s, &mut table, &ok(2, [0, 0, 1])).unwrap();
    let body = Body::Accept { command: EDIT, deps: deps([0, 1, 1]) };
    let wanted = Message { from: 0, to: 1, owner: 0, number: 1, ballot: 0, body };
    assert_eq!(setup(1).read_message(&sent[..37]), Ok(wanted));
}

/// W8, with a list that is too short and one that is too long.
#[test]
fn handed_out() {
    let s = setup(2);
    let mut table = blank(s);
    hear(s, &mut table, &commit(0, 2, [0, 1, 0])).unwrap();
    hear(s, &mut table, &commit(1, 2, [1, 0, 0])).unwrap();
    assert_eq!(s.hand_out(&mut table, &mut []), Ok(0));
    let mut list = [9; 1];
    assert_eq!((s.hand_out(&mut table, &mut list), list), (Ok(1), [1]));
    let mut list = [9; 3];
    assert_eq!((s.hand_out(&mut table, &mut list), list), (Ok(1), [257, 9, 9]));
    assert_eq!(Instance::of_code(257), Instance { owner: 1, number: 1 });
}

#[test]
fn all_refusals() {
    let s = setup(0);
    let mut table = blank(s);
    let mut out = [0; ROOM];
    assert_eq!(Setup { n: 4, ..s }.blank(&mut table), Err(Refusal::Setup));
    assert_eq!(s.request(&mut table, &mut out[..255], EDIT), Err(Refusal::Room));
    assert_eq!(s.message(&mut table, &mut out, &[]), Err(Refusal::UnknownKind));
    let second = Command { second: 8, ..EDIT };
    let keys = [(7, 7), (8, 7), (0, 0)].map(|(key, second)| Command { key, second, ..REWIRE });
    for command in [Command::NO_OP, second].into_iter().chain(keys) {
        assert_eq!(s.request(&mut table, &mut out, command), Err(Refusal::Op));
    }
    assert_eq!(
        s.recover(&mut table, &mut out, Instance { owner: 3, number: 1 }),
        Err(Refusal::Instance)
    );
    assert_eq!(s.nudge(&mut table, &mut out, FIRST), Err(Refusal::NudgeIdle));
    for _ in 0..4 {
        s.request(&mut table, &mut out, EDIT).unwrap();
    }
    assert_eq!(s.request(&mut table, &mut out, EDIT), Err(Refusal::NoBlank));
    hear(s, &mut table, &commit(1, 0, [0; 3])).unwrap();
    let one = Instance { owner: 1, number: 1 };
    assert_eq!(s.recover(&mut table, &mut out, one), Err(Refusal::RecoverCommitted));
    assert_eq!(hear(s, &mut table, &commit(1, 0, [1, 0, 0])), Err(Refusal::OtherCommit));
    let (at, _) = s.part(&table, Instance { owner: 2, number: 1 });
    table[at..at + 4].copy_from_slice(&4_294_967_288u32.to_le_bytes());
    let two = Instance { owner: 2, number: 1 };
    assert_eq!(s.recover(&mut table, &mut out, two), Err(Refusal::BallotsUsedUp));
    table[at] = 7;
    assert_eq!(s.judge(&table), Err(Refusal::Unsound));
}

/// Numbers and back; no call tells 0, 3, 12, 36 or 44, or blames a byte at which no field begins.
#[test]
fn refusal_numbers() {
    let told: Vec<Refusal> = (0..50).filter_map(|number| Refusal::told(number, 0, 0)).collect();
    let numbers: Vec<u32> = told.iter().map(|r| r.number()).collect();
    assert_eq!(numbers, [1, 2, 4, 5, 6, 7, 8, 9, 10, 11, 31, 32, 33, 34, 41, 42, 43]);
    assert!(told.iter().all(|r| r.offset() == 0));
    assert_eq!(Refusal::told(35, 4, 10), None);
    let wrong = Refusal::told(35, 7, 34).unwrap();
    assert_eq!(wrong, Refusal::WrongField { offset: 34, field: Field::Dependency(3) });
    assert_eq!((wrong.number(), wrong.offset()), (35, 34));
    assert_eq!(wrong.to_string(), "35: a field out of range, dependency 3 at byte 34");
    assert_eq!(Refusal::WrongWay.to_string(), "33: a message to another copy, or from this one");
    let offset = 300;
    let entries = [
        (41, Refusal::EntryKind { offset }, "an entry of unknown kind"),
        (42, Refusal::EntryInstance { offset }, "an entry of no instance that there is"),
        (
            43,
            Refusal::EntryUnsound { offset },
            "an entry with an unsound record, or a mark where nothing is committed",
        ),
    ];
    for (number, refusal, words) in entries {
        assert_eq!(Refusal::told(number, 0, offset), Some(refusal));
        assert_eq!((refusal.number(), refusal.offset()), (number, offset));
        assert_eq!(refusal.to_string(), format!("{number}: {words}, at byte 300"));
    }
}

/// Every byte of every kind: the field that begins there, or none.
#[test]
fn fields_by_their_offsets() {
    let command = "op key . . . edit . . . . . . .";
    let rewire = "op key . . . secondkey . . . edit . . . . . . .";
    let deps: String = (0..7).map(|q| format!(" dependency{q} .")).collect();
    for kind in 0..=255 {
        let body = match kind {
            1 | 3 | 5 => format!("{command}{deps}"),
            2 => deps.clone(),
            4 | 6 => String::new(),
            7 => format!("voted . . . status {command}{deps}"),
            8 => "joined . . .".into(),
            9..=11 => format!("{rewire}{deps}"),
            12 => format!("voted . . . status {rewire}{deps}"),
            _ => {
                assert!((0..64).all(|offset| Field::at(kind, offset).is_none()));
                continue;
            }
        };
        let wanted = format!(". from to owner number . ballot . . . {body}");
        let begins = |offset| match Field::at(kind, offset) {
            Some(field) => field.to_string().replace(' ', ""),
            None => ".".into(),
        };
        let length = wanted.split_whitespace().count();
        let got: Vec<String> = (0..length).map(begins).collect();
        assert_eq!(got.join(" "), wanted.split_whitespace().collect::<Vec<_>>().join(" "));
        assert!((length..64).all(|offset| Field::at(kind, offset).is_none()));
    }
}

/// The bytes of the W2 answer, with this byte changed, at copy 0: what reader and event both answer.
fn changed(at: usize, byte: u8) -> Refusal {
    let s = setup(0);
    let mut bytes = [0; ROOM];
    let length = s.write_message(&mut bytes, &ok(1, [0; 3])).unwrap();
    bytes[at] = byte;
    let read = s.read_message(&bytes[..length]).unwrap_err();
    let (mut table, mut out) = (blank(s), [0xa5; ROOM]);
    let before = table.clone();
    assert_eq!(s.message(&mut table, &mut out, &bytes[..length]), Err(read));
    assert!(table == before && out == [0xa5; ROOM]);
    read
}

#[test]
fn reasons_of_the_reader() {
    assert_eq!(changed(0, 13), Refusal::UnknownKind);
    assert_eq!(changed(0, 9), Refusal::WrongLength);
    assert_eq!(changed(0, 1), Refusal::WrongLength);
    assert_eq!(changed(2, 1), Refusal::WrongWay);
    assert_eq!(changed(1, 0), Refusal::WrongWay);
    assert_eq!(changed(3, 1), Refusal::WrongLead);
    let fields = [
        (1, 3, Field::From),
        (2, 3, Field::To),
        (3, 3, Field::Owner),
        (4, 5, Field::Number),
        (6, 7, Field::Ballot),
        (10, 5, Field::Dependency(0)),
        (22, 1, Field::Dependency(6)),
    ];
    for (offset, byte, field) in fields {
        assert_eq!(changed(offset, byte), Refusal::WrongField { offset, field });
    }
}

/// The writer answers what the copy named in `to` would.
#[test]
fn reasons_of_the_writer() {
    let s = setup(2);
    let mut out = [0; ROOM];
    let mut refused = |m: Message| s.write_message(&mut out, &m).unwrap_err();
    let good = commit(1, 0, [0; 3]);
    let wrong = |offset, field| Refusal::WrongField { offset, field };
    assert_eq!(refused(Message { to: 3, ..good }), wrong(2, Field::To));
    assert_eq!(refused(Message { from: 0, ..good }), Refusal::WrongWay);
    assert_eq!(refused(Message { owner: 1, ..ok(1, [0; 3]) }), Refusal::WrongLead);
    let command = Command { op: Op::NoOp, ..EDIT };
    let no_op = |command| Body::Commit { command, deps: deps([0; 3]) };
    assert_eq!(refused(Message { body: no_op(command), ..good }), wrong(11, Field::Key));
    let command = Command { key: 0, ..command };
    assert_eq!(refused(Message { body: no_op(command), ..good }), wrong(15, Field::Edit));
    let vote = |voted, status, command| {
        let body = Body::PrepareOk { voted, status, command, deps: deps([0; 3]) };
        Message { ballot: 8, body, ..good }
    };
    assert_eq!(refused(vote(8, 1, EDIT)), wrong(10, Field::Voted));
    assert_eq!(refused(vote(0, 4, EDIT)), wrong(14, Field::Status));
    assert_eq!(refused(vote(0, 0, EDIT)), wrong(15, Field::Op));
    assert_eq!(refused(vote(0, 0, REWIRE)), wrong(15, Field::Op));
    let keys = [(9, 9), (9, 8), (0, 0)].map(|(key, second)| Command { key, second, ..REWIRE });
    for command in keys {
        assert_eq!(refused(vote(0, 1, command)), wrong(20, Field::Second));
        assert_eq!(refused(Message { body: no_op(command), ..good }), wrong(15, Field::Second));
    }
    for op in [Op::NoOp, Op::Read, Op::Write] {
        let command = Command { op, ..REWIRE };
        assert_eq!(refused(Message { body: no_op(command), to: 3, ..good }), Refusal::WrongLength);
    }
    let nack = Message { ballot: 8, body: Body::Nack { joined: 8 }, ..good };
    assert_eq!(refused(nack), wrong(10, Field::Joined));
}

/// Every kind as numbers and back, the numbers in the header's places.
#[test]
fn fields() {
    let deps = [1, 2, 3, 4, 5, 6, 7];
    let bodies = [
        Body::PreAccept { command: EDIT, deps },
        Body::PreAcceptOk { deps },
        Body::Accept { command: EDIT, deps },
        Body::AcceptOk,
        Body::Commit { command: EDIT, deps },
        Body::Prepare,
        Body::PrepareOk { voted: 10, status: 3, command: EDIT, deps },
        Body::Nack { joined: 18 },
        Body::PreAccept { command: REWIRE, deps },
        Body::Accept { command: REWIRE, deps },
        Body::Commit { command: REWIRE, deps },
        Body::PrepareOk { voted: 10, status: 3, command: REWIRE, deps },
    ];
    for (kind, body) in (1u64..).zip(bodies) {
        let m = Message { from: 1, to: 2, owner: 3, number: 4, ballot: 5, body };
        let f = m.fields();
        assert_eq!(f[..6], [kind, 1, 2, 3, 4, 5]);
        assert_eq!(Message::from_fields(&f), Some(m));
        assert_eq!(
            Message::from_fields(&{
                let mut g = f;
                g[1] = 256;
                g
            }),
            None
        );
    }
    let m = Message { from: 1, to: 2, owner: 3, number: 4, ballot: 5, body: bodies[6] };
    assert_eq!(m.fields()[6..], [10, 3, 2, 7, 0, 100, 1, 2, 3, 4, 5, 6, 7]);
    let m = Message { body: bodies[11], ..m };
    assert_eq!(m.fields()[6..], [10, 3, 3, 7, 8, 100, 1, 2, 3, 4, 5, 6, 7]);
    // A rewire in a short kind, and another op in a long one.
    for (kind, op) in [(1, 3), (7, 3), (9, 2), (12, 0), (9, 4)] {
        let mut f = m.fields();
        (f[0], f[8]) = (kind, op);
        assert_eq!(Message::from_fields(&f), None);
    }
}
