//! A message as an enum, and as the nineteen numbers that cross to C.

/// Entry q is copy q's; zero from copy N on.
pub type Deps = [u16; 7];

#[derive(Clone, Copy, Debug, PartialEq, Eq)]
pub enum Op {
    NoOp = 0,
    Read = 1,
    Write = 2,
    /// A write on two objects.
    Rewire = 3,
}

impl Op {
    pub fn from_number(number: u64) -> Option<Op> {
        [Op::NoOp, Op::Read, Op::Write, Op::Rewire].into_iter().find(|&op| op as u64 == number)
    }
}

#[derive(Clone, Copy, Debug, PartialEq, Eq)]
pub struct Command {
    pub op: Op,
    pub key: u32,
    /// A rewire's second key, above the first; zero with every other op. Any numbers may stand here; the calls judge them.
    pub second: u32,
    pub edit: u64,
}

impl Command {
    pub const NO_OP: Command = Command { op: Op::NoOp, key: 0, second: 0, edit: 0 };

    pub const fn read(key: u32, edit: u64) -> Command {
        Command { op: Op::Read, key, second: 0, edit }
    }

    pub const fn write(key: u32, edit: u64) -> Command {
        Command { op: Op::Write, key, second: 0, edit }
    }

    /// Of the two keys the first must be the smaller.
    pub const fn rewire(key: u32, second: u32, edit: u64) -> Command {
        Command { op: Op::Rewire, key, second, edit }
    }
}

#[derive(Clone, Copy, Debug, PartialEq, Eq)]
pub enum Body {
    PreAccept { command: Command, deps: Deps },
    PreAcceptOk { deps: Deps },
    Accept { command: Command, deps: Deps },
    AcceptOk,
    Commit { command: Command, deps: Deps },
    Prepare,
    PrepareOk { voted: u32, status: u8, command: Command, deps: Deps },
    Nack { joined: u32 },
}

#[derive(Clone, Copy, Debug, PartialEq, Eq)]
pub struct Message {
    pub from: u8,
    pub to: u8,
    pub owner: u8,
    pub number: u16,
    pub ballot: u32,
    pub body: Body,
}

/// Kind, from, to, owner, number, ballot, voted or joined, status, op, key, second key, edit, seven dependencies.
pub type Fields = [u64; 19];

/// Where the dependencies begin among them.
const ENTRIES: usize = 12;

impl Body {
    /// The paper's number of the kind: a body with a rewire in it has one of its own.
    pub fn kind(&self) -> u8 {
        let rewire = |command: &Command| command.op == Op::Rewire;
        match self {
            Body::PreAccept { command, .. } if rewire(command) => 9,
            Body::PreAccept { .. } => 1,
            Body::PreAcceptOk { .. } => 2,
            Body::Accept { command, .. } if rewire(command) => 10,
            Body::Accept { .. } => 3,
            Body::AcceptOk => 4,
            Body::Commit { command, .. } if rewire(command) => 11,
            Body::Commit { .. } => 5,
            Body::Prepare => 6,
            Body::PrepareOk { command, .. } if rewire(command) => 12,
            Body::PrepareOk { .. } => 7,
            Body::Nack { .. } => 8,
        }
    }

    fn from_fields(f: &Fields) -> Option<Body> {
        let deps = read_deps(f)?;
        let command = || read_command(f);
        Some(match f[0] {
            1 | 9 => Body::PreAccept { command: command()?, deps },
            2 => Body::PreAcceptOk { deps },
            3 | 10 => Body::Accept { command: command()?, deps },
            4 => Body::AcceptOk,
            5 | 11 => Body::Commit { command: command()?, deps },
            6 => Body::Prepare,
            7 | 12 => Body::PrepareOk {
                voted: f[6].try_into().ok()?,
                status: f[7].try_into().ok()?,
                command: command()?,
                deps,
            },
            8 => Body::Nack { joined: f[6].try_into().ok()? },
            _ => return None,
        })
    }
}

impl Message {
    /// The command that the body carries, if it carries one.
    pub fn command(&self) -> Option<Command> {
        match self.body {
            Body::PreAccept { command, .. }
            | Body::Accept { command, .. }
            | Body::Commit { command, .. }
            | Body::PrepareOk { command, .. } => Some(command),
            Body::PreAcceptOk { .. } | Body::AcceptOk | Body::Prepare | Body::Nack { .. } => None,
        }
    }

    pub fn fields(&self) -> Fields {
        let mut f = [0; 19];
        f[0] = self.body.kind() as u64;
        f[1] = self.from as u64;
        f[2] = self.to as u64;
        f[3] = self.owner as u64;
        f[4] = self.number as u64;
        f[5] = self.ballot as u64;
        match self.body {
            Body::PreAccept { command, deps }
            | Body::Accept { command, deps }
            | Body::Commit { command, deps } => {
                put_command(&mut f, &command);
                put_deps(&mut f, &deps);
            }
            Body::PreAcceptOk { deps } => put_deps(&mut f, &deps),
            Body::PrepareOk { voted, status, command, deps } => {
                f[6] = voted as u64;
                f[7] = status as u64;
                put_command(&mut f, &command);
                put_deps(&mut f, &deps);
            }
            Body::Nack { joined } => f[6] = joined as u64,
            Body::AcceptOk | Body::Prepare => {}
        }
        f
    }

    /// The message that these numbers say; none where one does not fit its place. What the kind does not carry is not
    /// looked at.
    pub fn from_fields(f: &Fields) -> Option<Message> {
        Some(Message {
            from: f[1].try_into().ok()?,
            to: f[2].try_into().ok()?,
            owner: f[3].try_into().ok()?,
            number: f[4].try_into().ok()?,
            ballot: f[5].try_into().ok()?,
            body: Body::from_fields(f)?,
        })
    }
}

fn put_command(f: &mut Fields, command: &Command) {
    f[8] = command.op as u64;
    f[9] = command.key as u64;
    f[10] = command.second as u64;
    f[11] = command.edit;
}

fn put_deps(f: &mut Fields, deps: &Deps) {
    for (place, &entry) in f[ENTRIES..].iter_mut().zip(deps) {
        *place = entry as u64;
    }
}

/// Kinds above 8 carry a rewire and nothing else, and no other kind carries one or a second key.
fn read_command(f: &Fields) -> Option<Command> {
    let op = Op::from_number(f[8]).filter(|&op| (op == Op::Rewire) == (f[0] > 8))?;
    let second = if op == Op::Rewire { f[10].try_into().ok()? } else { 0 };
    Some(Command { op, key: f[9].try_into().ok()?, second, edit: f[11] })
}

fn read_deps(f: &Fields) -> Option<Deps> {
    let mut deps = [0; 7];
    for (entry, &number) in deps.iter_mut().zip(&f[ENTRIES..]) {
        *entry = number.try_into().ok()?;
    }
    Some(deps)
}
