//! Random sequences, each repeatable from the seed and its number.

use crate::asked::{variations, Asked, Variation};
use crate::boundary::STATE_LENGTHS;
use crate::damage::{self, damages, replay_damages};
use crate::memory::{Buffer, BUFFERS};
use crate::run::{Run, Sequence};
use crate::step::Step;
use crate::stores::{any_bitmaps, bitmap, entry_len, first_used, resized, used, written};
use model::bank::ALL;
use model::limits::LONGEST;
use model::random::Random;
use model::replay::{ANSWER_BYTES, REPLAY_BYTES};
use model::service::{at, EXTEND_ONLY, MARKS_BYTES, PE_COFF, STATE_BYTES};

/// A sequence has at least so many calls.
const CALLS: usize = 12;

pub struct Generator {
    random: Random,
    variations: Vec<Variation>,
    /// Every bitmap, and the one of every bank once more.
    bitmaps: Vec<u32>,
    no_bitmaps: Vec<u32>,
}

impl Generator {
    pub fn new() -> Generator {
        let no_bitmaps = any_bitmaps().into_iter().chain([2 * ALL + 2, u32::MAX]);
        Generator {
            random: Random::new(0),
            variations: variations(),
            bitmaps: (1..=ALL).chain([ALL]).collect(),
            no_bitmaps: no_bitmaps.filter(|n| !(1..=ALL).contains(n)).collect(),
        }
    }

    pub fn sequence(&mut self, run: &mut Run, seed: u64, number: u64) {
        self.random = Random::new(Random::new(seed).number() ^ number);
        let mut sequence = Sequence::new(run, format!("seed {seed}, sequence {number}"));
        self.open(&mut sequence);
        while sequence.goes_on(CALLS) {
            if self.blank(&sequence) && !self.random.one_in(4) {
                self.open(&mut sequence);
            }
            self.turn(&mut sequence);
        }
    }

    /// The last opening was refused.
    fn blank(&self, sequence: &Sequence) -> bool {
        let memory = sequence.memory();
        memory.state.get().len() != STATE_BYTES || bitmap(memory) == 0
    }

    fn turn(&mut self, sequence: &mut Sequence) {
        match self.random.below(27) {
            24.. => self.replay(sequence),
            0 => self.open(sequence),
            1 | 2 => self.damaged(sequence),
            3 => self.other_state(sequence),
            4 => self.other_buffer(sequence),
            5..=8 => self.read(sequence),
            _ => self.request(sequence),
        }
    }

    fn open(&mut self, sequence: &mut Sequence) {
        let random = &mut self.random;
        let bitmap = if random.one_in(16) {
            random.pick(&self.no_bitmaps)
        } else {
            random.pick(&self.bitmaps)
        };
        for buffer in BUFFERS {
            let len = buffer_len(random, buffer, bitmap);
            sequence.make(Step::Lend(buffer, random.octets(len)));
        }
        if random.one_in(4) {
            let len = match random.below(6) {
                0 => random.pick(&[0, 1, STATE_BYTES - 1, STATE_BYTES + 1]),
                _ => STATE_BYTES,
            };
            sequence.make(Step::State(random.octets(len), "any bytes".to_string()));
        }
        sequence.make(Step::Open { bitmap });
    }

    fn read(&mut self, sequence: &mut Sequence) {
        let random = &mut self.random;
        let format = match random.below(6) {
            0 => random.pick(&[0, 3, 4, 0x101, 0x102, (1 << 31) + 2, u32::MAX]),
            _ => random.pick(&[1, 2]),
        };
        let len = match random.below(10) {
            0 => random.pick(&[0, 1, MARKS_BYTES - 1, MARKS_BYTES + 1, 2 * MARKS_BYTES]),
            _ => MARKS_BYTES,
        };
        let answer = random.octets(len);
        sequence.make(Step::Read { format, answer });
    }

    fn request(&mut self, sequence: &mut Sequence) {
        let asked = self.asked();
        if self.random.one_in(4) {
            self.tune(sequence, &asked);
        }
        sequence.make(asked.step());
    }

    /// Most requests are good; some have one field changed, or more.
    fn asked(&mut self) -> Asked {
        let event = match self.random.below(8) {
            0 | 1 => 0,
            2 => self.random.below(300),
            _ => self.random.below(40),
        };
        let data = match self.random.below(8) {
            0 => self.random.below(300),
            _ => self.random.below(70),
        };
        let mut asked = Asked::good(&mut self.random, event, 1 + data);
        if self.random.one_in(6) {
            asked.flags = EXTEND_ONLY;
        }
        if self.random.one_in(16) {
            asked.flags |= PE_COFF;
        }
        if self.random.one_in(3) {
            self.vary(&mut asked);
            if self.random.one_in(4) {
                self.vary(&mut asked);
            }
        }
        asked
    }

    /// The long variations are rare.
    fn vary(&mut self, asked: &mut Asked) {
        let mut variation = self.random.pick(&self.variations);
        while variation.long() && !self.random.one_in(8) {
            variation = self.random.pick(&self.variations);
        }
        variation.vary(asked, &mut self.random);
    }

    /// A buffer into which the entry just fits, or is one short.
    fn tune(&mut self, sequence: &mut Sequence, asked: &Asked) {
        let memory = sequence.memory();
        let buffer = self.random.pick(&BUFFERS);
        let entry = entry_len(buffer, bitmap(memory), asked.event_len());
        let used = used(memory, buffer);
        if used > LONGEST as u64 || entry > LONGEST {
            return;
        }
        let len = used as usize + entry - self.random.pick(&[0, 0, 1, 1, 2]);
        let step = resized(memory, buffer, len, &mut self.random);
        sequence.make(step);
    }

    /// A call with a damaged state, which is mostly put back.
    fn damaged(&mut self, sequence: &mut Sequence) {
        if sequence.memory().state.get().len() != STATE_BYTES {
            return;
        }
        let all = damages(sequence.memory());
        let damage = &all[self.random.below(all.len())];
        let step = damage::step(sequence.memory().state.get(), damage);
        self.with_state(sequence, step);
    }

    /// A call with a state of any bytes, of another length, or with other
    /// registers.
    fn other_state(&mut self, sequence: &mut Sequence) {
        let mut state = sequence.memory().state.get().to_vec();
        let words = match self.random.below(4) {
            0 => {
                state = self.random.octets(STATE_BYTES);
                "any bytes"
            }
            1 => {
                state.resize(self.random.pick(&STATE_LENGTHS), 0);
                "cut, or with zeros after"
            }
            2 if state.len() == STATE_BYTES => {
                state.truncate(at::REGISTERS);
                state.extend(self.random.octets(STATE_BYTES - at::REGISTERS));
                "any registers"
            }
            _ => {
                if !state.is_empty() {
                    let place = self.random.below(state.len());
                    state[place] ^= 1 << self.random.below(8);
                }
                "one bit turned"
            }
        };
        self.with_state(sequence, Step::State(state, words.to_string()));
    }

    fn with_state(&mut self, sequence: &mut Sequence, step: Step) {
        let before = sequence.memory().state.get().to_vec();
        sequence.make(step);
        self.call(sequence);
        if !self.random.one_in(4) {
            sequence.make(Step::State(before, "as it was before".to_string()));
        }
    }

    /// A call with a buffer of another length, which is mostly put back.
    fn other_buffer(&mut self, sequence: &mut Sequence) {
        let memory = sequence.memory();
        let buffer = self.random.pick(&BUFFERS);
        let used = used(memory, buffer).min(LONGEST as u64) as usize;
        let len = match self.random.below(8) {
            0 => self.random.pick(&[LONGEST, LONGEST + 1]),
            1 => self.random.below(used + 1),
            2 => used + self.random.below(200),
            3 => used + 1,
            4 | 5 => used,
            _ => used.saturating_sub(1),
        };
        let before = memory.stores[buffer].get().to_vec();
        let step = resized(memory, buffer, len, &mut self.random);
        sequence.make(step);
        self.call(sequence);
        if !self.random.one_in(4) {
            sequence.make(Step::Lend(buffer, before));
        }
    }

    /// A beginning and slices of a log that was written, mostly as it stands.
    fn replay(&mut self, sequence: &mut Sequence) {
        let format = self.random.pick(&[1, 2]);
        self.log(sequence, format);
        if self.random.one_in(8) {
            let len = self
                .random
                .pick(&[0, 1, REPLAY_BYTES - 1, REPLAY_BYTES + 1]);
            let len = self.random.pick(&[len, REPLAY_BYTES, REPLAY_BYTES]);
            let bytes = self.random.octets(len);
            sequence.make(Step::Replay(bytes, "any bytes".to_string()));
        }
        let format = match self.random.below(12) {
            0 => self.random.pick(&[0, 3, 4, 0x101, 0x102, (1 << 31) + 2]),
            1 => 3 - format,
            _ => format,
        };
        sequence.make(Step::Begin { format });
        for _ in 0..=self.random.below(4) {
            match self.random.below(12) {
                0 => self.damaged_replay(sequence),
                1 => self.log(sequence, format),
                _ => (),
            }
            self.slice(sequence);
        }
    }

    /// Lends a log to replays: the used bytes, or those cut, with bytes behind
    /// them, with bits turned, or too many.
    fn log(&mut self, sequence: &mut Sequence, format: u32) {
        let random = &mut self.random;
        let mut log = written(sequence.memory(), format);
        let words = match random.below(12) {
            0 => {
                log.truncate(random.below(log.len() + 1));
                "cut"
            }
            1 => {
                let behind = random.below(100);
                log.extend(random.octets(behind));
                "bytes behind it"
            }
            2 | 3 if !log.is_empty() => {
                for _ in 0..=random.below(2) {
                    let place = random.below(log.len());
                    log[place] ^= 1 << random.below(8);
                }
                "bits turned"
            }
            4 if random.one_in(8) => {
                log.resize(random.pick(&[LONGEST, LONGEST + 1]), 0);
                "zeros behind it"
            }
            _ => "as written",
        };
        sequence.make(Step::Log(log, words.to_string()));
    }

    fn damaged_replay(&mut self, sequence: &mut Sequence) {
        let memory = sequence.memory();
        let mut replay = memory.replay.get().to_vec();
        if replay.len() != REPLAY_BYTES {
            return;
        }
        let step = if self.random.one_in(3) {
            let place = self.random.below(REPLAY_BYTES);
            replay[place] ^= 1 << self.random.below(8);
            Step::Replay(replay, "one bit turned".to_string())
        } else {
            let all = replay_damages(memory.log.get().len() as u64);
            damage::replay_step(&replay, &all[self.random.below(all.len())])
        };
        sequence.make(step);
    }

    fn slice(&mut self, sequence: &mut Sequence) {
        let random = &mut self.random;
        let asked = random.pick(&[0, 1, 1, 1, 2, 3, 5, 1 << 32, u64::MAX]);
        let len = match random.below(16) {
            0 => random.pick(&[0, 1, ANSWER_BYTES - 1, ANSWER_BYTES + 1, 2 * ANSWER_BYTES]),
            _ => ANSWER_BYTES,
        };
        let answer = random.octets(len);
        sequence.make(Step::Slice { asked, answer });
    }

    fn call(&mut self, sequence: &mut Sequence) {
        match self.random.below(12) {
            0 => self.open(sequence),
            1..=4 => self.read(sequence),
            _ => self.request(sequence),
        }
    }
}

/// Room for a few entries or for many, seldom none or the most there may be.
fn buffer_len(random: &mut Random, buffer: Buffer, bitmap: u32) -> usize {
    let first = first_used(buffer, bitmap);
    match random.below(64) {
        0 => random.pick(&[LONGEST, LONGEST, LONGEST + 1]),
        1 | 2 => random.below(first + 1),
        3 => first.max(1) - 1,
        4 | 5 => first + random.below(2),
        6..=36 => first + 1_000 + random.below(3_000),
        _ => first + random.below(500),
    }
}
