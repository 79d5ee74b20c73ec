//! Sequences made on both sides, compared after every call.

use crate::memory::Memory;
use crate::step::Step;
use compare::Counts;
use linked::LIBRARY;
use model::calls::MODEL;

/// The statuses that can occur, by call, 01, "When the panel answers no" and
/// "Replay".
const POSSIBLE: [(&str, &[u64]); 5] = [
    ("open", &[0, 2, 5]),
    ("request", &[0, 2, 3, 7, 11]),
    ("read_log", &[0, 2, 7]),
    ("begin", &[0, 35, 36, 37, 38]),
    ("slice", &[0, 31, 32, 33, 34, 35, 36]),
];

/// More sequences than these that differ are counted, not shown.
const SHOWN: u64 = 5;

pub struct Run {
    pub sequences: u64,
    pub counts: Counts,
    /// The calls that agreed, by call and status, in the order of `POSSIBLE`.
    seen: Vec<(&'static str, u64, u64)>,
}

impl Run {
    pub fn new() -> Run {
        let seen = POSSIBLE
            .iter()
            .flat_map(|(call, numbers)| numbers.iter().map(|&number| (*call, number, 0)))
            .collect();
        Run {
            sequences: 0,
            counts: Counts::default(),
            seen,
        }
    }

    /// Prints how often each status was seen; one never seen is a failure.
    pub fn print_seen(&mut self) {
        for &(call, number, times) in &self.seen {
            println!("{call} answered {number}: {times} times");
            if times == 0 {
                println!("  it can occur, and never did");
                self.counts.failed += 1;
            }
        }
    }

    fn agreed(&mut self, call: &str, status: u64) {
        self.counts.passed += 1;
        let number = status & !(1 << 63);
        for (name, possible, times) in &mut self.seen {
            if *name == call && *possible == number {
                *times += 1;
            }
        }
    }
}

/// One sequence. After a call that differs it goes on with no other.
pub struct Sequence<'a> {
    run: &'a mut Run,
    name: String,
    steps: Vec<Step>,
    library: Memory,
    model: Memory,
    calls: usize,
    differs: bool,
}

impl Sequence<'_> {
    pub fn new(run: &mut Run, name: String) -> Sequence<'_> {
        run.sequences += 1;
        Sequence {
            run,
            name,
            steps: Vec::new(),
            library: Memory::new(),
            model: Memory::new(),
            calls: 0,
            differs: false,
        }
    }

    /// What is lent, as the model left it.
    pub fn memory(&self) -> &Memory {
        &self.model
    }

    /// Whether calls agree so far, and are fewer than `calls`.
    pub fn goes_on(&self, calls: usize) -> bool {
        !self.differs && self.calls < calls
    }

    pub fn make(&mut self, step: Step) {
        if self.differs {
            return;
        }
        let shift = self.steps.len() * 5;
        let found = step.make(&mut self.library, &LIBRARY, shift);
        let wanted = step.make(&mut self.model, &MODEL, shift);
        let call = step.call();
        self.steps.push(step);
        let (Some(call), Some(found), Some(wanted)) = (call, found, wanted) else {
            return;
        };
        self.calls += 1;
        if found == wanted && self.library == self.model {
            self.run.agreed(call, found);
        } else {
            self.differs = true;
            self.run.counts.failed += 1;
            self.show(found, wanted);
        }
    }

    /// The steps up to the first call that differs: no shorter beginning of
    /// the sequence shows it.
    fn show(&self, found: u64, wanted: u64) {
        if self.run.counts.failed > SHOWN {
            return;
        }
        println!("{}: call {} differs", self.name, self.calls);
        for step in &self.steps {
            println!("  {}", step.words());
        }
        println!("  library: status {found:#x}, wanted {wanted:#x}");
        for difference in self.library.differences(&self.model) {
            println!("  library: {difference}");
        }
    }
}
