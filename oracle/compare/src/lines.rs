//! The lines of document 01's program, and the lines that the cases of docs/DIFFERENCES.md add.

use rules::{Call, Load, Move, ENTRIES, OWNERS};

/// What a line asks for.
pub enum Request {
    /// `plan`, `dur`, `fix`: nothing is printed.
    Gather,
    One(Call),
    /// Score, verdict and starts, shown together, with this room.
    Show(usize),
}

impl Request {
    /// The calls that it comes to, in order.
    pub fn calls(self) -> Vec<Call> {
        match self {
            Request::Gather => Vec::new(),
            Request::One(call) => vec![call],
            Request::Show(room) => vec![Call::Score, Call::Verdict { room }, Call::Starts { room }],
        }
    }
}

#[derive(Clone, Copy, PartialEq, Eq)]
pub enum Lines {
    /// Document 01's lines alone.
    Program,
    /// Also `exp`, `starts` and the four moves.
    Cases,
}

#[derive(Clone, Copy, PartialEq, Eq)]
enum Stage {
    Plan,
    Durations,
    Fixed,
    Open,
}

/// Reads line after line and remembers what was gathered for `go`.
pub struct Reader {
    lines: Lines,
    stage: Stage,
    load: Load,
    /// As typed: the number of durations that must follow.
    jobs: u64,
}

impl Reader {
    pub fn new(lines: Lines) -> Reader {
        Reader {
            lines,
            stage: Stage::Plan,
            load: Load::default(),
            jobs: 0,
        }
    }

    /// Nothing, if the line doesn't fit.
    pub fn read(&mut self, line: &[u8]) -> Option<Request> {
        let mut fields = line.split(|&byte| byte == b' ');
        let word = fields.next()?;
        let numbers = fields.map(number).collect::<Option<Vec<u64>>>()?;
        match self.stage {
            Stage::Open => self.read_call(word, &numbers),
            _ => self.read_table(word, &numbers),
        }
    }

    fn read_table(&mut self, word: &[u8], numbers: &[u64]) -> Option<Request> {
        let full = numbers.len() as u64 == self.jobs;
        match (self.stage, word, numbers) {
            (Stage::Plan, b"plan", &[jobs, owners]) => {
                self.jobs = jobs;
                self.load.jobs = narrow(jobs);
                self.load.owners = narrow(owners);
                self.stage = Stage::Durations;
            }
            (Stage::Durations, b"dur", _) if full => {
                self.load.durations = numbers.to_vec();
                self.stage = Stage::Fixed;
            }
            (Stage::Fixed, b"fix", &[from, to]) => {
                self.load.from.push(narrow(from));
                self.load.to.push(narrow(to));
            }
            (Stage::Fixed, b"exp", _) if full && self.lines == Lines::Cases => {
                self.load.expected = narrow_all(numbers);
            }
            (Stage::Fixed, b"go", []) => {
                self.stage = Stage::Open;
                return Some(Request::One(Call::Load(self.load.clone())));
            }
            _ => return None,
        }
        Some(Request::Gather)
    }

    fn read_call(&self, word: &[u8], numbers: &[u64]) -> Option<Request> {
        let call = match (word, numbers) {
            (b"put", [owner, entries @ ..]) => Call::Put(narrow(*owner), narrow_all(entries)),
            (b"cut", &[owner]) => Call::Retract(narrow(owner)),
            // Each owner once, so there are no more blocks than valid entries in force.
            (b"crit", []) => Call::Blocks {
                owners: (0..self.load.owners.min(OWNERS as u32)).collect(),
                room: ENTRIES,
            },
            (b"show", []) => return Some(Request::Show(self.load.jobs as usize)),
            _ if self.lines == Lines::Cases => self.read_case_call(word, &narrow_all(numbers))?,
            _ => return None,
        };
        Some(Request::One(call))
    }

    fn read_case_call(&self, word: &[u8], numbers: &[u32]) -> Option<Call> {
        let (owner, step) = match (word, numbers) {
            (b"starts", []) => {
                let room = self.load.jobs as usize;
                return Some(Call::Starts { room });
            }
            (b"change", &[owner, source, dest]) => (owner, Move::ListChange { source, dest }),
            (b"sublist", &[owner, start, end, dest]) => {
                (owner, Move::SublistChange { start, end, dest })
            }
            (b"swap", &[owner, a, b, c, d]) => {
                let (first, second) = ((a, b), (c, d));
                (owner, Move::SublistSwap { first, second })
            }
            (b"permute", &[owner, start, end, ref list @ ..]) => {
                let list = list.to_vec();
                (owner, Move::Permutation { start, end, list })
            }
            _ => return None,
        };
        let room = ENTRIES;
        Some(Call::Move { owner, step, room })
    }
}

/// Decimal without leading zeros and below 2^64.
fn number(field: &[u8]) -> Option<u64> {
    let digits = !field.is_empty() && field.iter().all(u8::is_ascii_digit);
    if !digits || (field.len() > 1 && field[0] == b'0') {
        return None;
    }
    std::str::from_utf8(field).ok()?.parse().ok()
}

/// A number too wide for the library counts as its largest.
fn narrow(number: u64) -> u32 {
    u32::try_from(number).unwrap_or(u32::MAX)
}

fn narrow_all(numbers: &[u64]) -> Vec<u32> {
    numbers.iter().map(|&number| narrow(number)).collect()
}
