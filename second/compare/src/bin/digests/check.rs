//! One call of the library, held to what it must answer.

use compare::lent::Lent;
use compare::Counts;
use model::random::Random;
use model::service::Status;

/// The checks of one run.
pub struct Checks {
    seed: u64,
    pub random: Random,
    pub counts: Counts,
}

impl Checks {
    pub fn new(seed: u64) -> Checks {
        Checks {
            seed,
            random: Random::new(seed),
            counts: Counts::default(),
        }
    }

    /// Lends a copy of `buffer` to `call`. With `Some(digest)` wanted the call
    /// must succeed and leave the digest in the buffer; with `None` it must
    /// refuse and change no octet. `name` says the call and its lengths.
    pub fn call(
        &mut self,
        name: &str,
        buffer: &[u8],
        wanted: Option<&[u8]>,
        call: impl FnOnce(&mut [u8]) -> u64,
    ) {
        let shift = self.random.below(16);
        let mut found = Lent::new(buffer, shift);
        let status = call(found.get_mut());
        let (wanted_status, wanted) = match wanted {
            Some(digest) => (Status::Success, digest),
            None => (Status::InvalidParameter, buffer),
        };
        let difference = found.difference(&Lent::new(wanted, shift));
        let difference = difference.map(|words| format!("buffer: {words}"));
        self.count(name, [other(status, wanted_status.wire()), difference]);
    }

    /// A call that is lent nothing.
    pub fn answer(&mut self, name: &str, answer: u64, wanted: u64) {
        self.count(name, [other(answer, wanted), None]);
    }

    fn count(&mut self, name: &str, differences: [Option<String>; 2]) {
        let differences: Vec<String> = differences.into_iter().flatten().collect();
        if differences.is_empty() {
            self.counts.passed += 1;
            return;
        }
        self.counts.failed += 1;
        println!("{name}, seed {}: differs", self.seed);
        for difference in differences {
            println!("  library: {difference}");
        }
    }
}

/// Says that an answer is not the wanted one.
fn other(answer: u64, wanted: u64) -> Option<String> {
    (answer != wanted).then(|| format!("answer {answer:#x}, wanted {wanted:#x}"))
}
