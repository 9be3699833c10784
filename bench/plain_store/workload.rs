//! The commands of a run, which are the same in each program.

/// One of how many transactions aborts.
const ONE_ABORTS: u32 = 8;

/// How many operations a transaction rolls back.
const ROLLED_BACK: u32 = 4;

/// A generator of numbers that look random (Marsaglia's xorshift of 32 bits).
struct Random(u32);

impl Random {
    fn below(&mut self, n: u32) -> u32 {
        self.0 ^= self.0 << 13;
        self.0 ^= self.0 >> 17;
        self.0 ^= self.0 << 5;
        self.0 % n
    }
}

/// What is asked of the store.
#[derive(Clone, Copy)]
pub enum Command {
    Begin,
    Call { t: u32, x: u32, c: u8 },
    Commit { t: u32 },
    Abort { t: u32 },
    Rollback { t: u32, n: u32 },
}

/// What else happens.
#[derive(Clone, Copy, PartialEq, Eq)]
pub enum Mode {
    /// Nothing.
    Plain,
    /// The first transaction makes one call and never ends.
    Old,
    /// Each transaction rolls back before its last call.
    Rollback,
}

/// This many open transactions, each of which makes this many calls and ends.
pub struct Workload {
    pub objects: u32,
    pub open: u32,
    pub calls: u32,
    pub mode: Mode,
    pub commands: usize,
}

/// An open transaction, and how many calls it will make.
#[derive(Clone, Copy)]
struct Running {
    t: u32,
    left: u32,
}

/// Commands that are being made.
struct Script<'a> {
    workload: &'a Workload,
    /// The numbers of the calls.
    numbers: &'a [u8],
    random: Random,
    begun: u32,
    commands: Vec<Command>,
}

impl Script<'_> {
    fn begin(&mut self) -> Running {
        let t = self.begun;
        self.begun += 1;
        self.commands.push(Command::Begin);
        Running {
            t,
            left: self.workload.calls,
        }
    }

    fn call(&mut self, t: u32) {
        let x = self.random.below(self.workload.objects);
        let c = self.numbers[self.random.below(self.numbers.len() as u32) as usize];
        self.commands.push(Command::Call { t, x, c });
    }

    fn end(&mut self, t: u32) {
        let aborts = self.random.below(ONE_ABORTS) == 0;
        self.commands.push(if aborts {
            Command::Abort { t }
        } else {
            Command::Commit { t }
        });
    }

    /// What an open transaction does next, and what is in its place then.
    fn turn(&mut self, running: Running) -> Running {
        let Running { t, left } = running;
        if left == 0 {
            self.end(t);
            return self.begin();
        }
        if left == 1 && self.workload.mode == Mode::Rollback {
            self.commands.push(Command::Rollback { t, n: ROLLED_BACK });
        }
        self.call(t);
        Running { t, left: left - 1 }
    }
}

/// The commands of a workload, for calls of these numbers.
pub fn commands_of(workload: &Workload, numbers: &[u8]) -> Vec<Command> {
    let (random, commands) = (Random(2_463_534_242), Vec::new());
    let mut script = Script {
        workload,
        numbers,
        random,
        begun: 0,
        commands,
    };
    if workload.mode == Mode::Old {
        let old = script.begin();
        script.call(old.t);
    }
    let mut running: Vec<Running> = (0..workload.open).map(|_| script.begin()).collect();
    while script.commands.len() < workload.commands {
        let place = script.random.below(workload.open) as usize;
        running[place] = script.turn(running[place]);
    }
    script.commands
}
