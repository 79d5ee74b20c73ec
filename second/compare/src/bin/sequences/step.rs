//! The steps of a sequence: what is lent, and the calls.

use crate::memory::{Buffer, Memory};
use compare::lent::Lent;
use model::calls::Calls;
use model::request::Head;

pub enum Step {
    /// A buffer holds these bytes from here on.
    Lend(Buffer, Vec<u8>),
    /// The state's buffer holds these bytes from here on; the words say what
    /// is changed.
    State(Vec<u8>, String),
    Open {
        bitmap: u32,
    },
    Request {
        flags: u64,
        request: Vec<u8>,
        data: Vec<u8>,
    },
    /// The answer record holds these bytes before the call.
    Read {
        format: u32,
        answer: Vec<u8>,
    },
    /// The replay's buffer holds these bytes from here on; the words say what
    /// is changed.
    Replay(Vec<u8>, String),
    /// The log that is replayed from here on, and what it is.
    Log(Vec<u8>, String),
    Begin {
        format: u32,
    },
    /// The answer record holds these bytes before the call.
    Slice {
        asked: u64,
        answer: Vec<u8>,
    },
}

impl Step {
    /// The name of the call, if the step is one.
    pub fn call(&self) -> Option<&'static str> {
        match self {
            Step::Lend(..) | Step::State(..) | Step::Replay(..) | Step::Log(..) => None,
            Step::Open { .. } => Some("open"),
            Step::Request { .. } => Some("request"),
            Step::Read { .. } => Some("read_log"),
            Step::Begin { .. } => Some("begin"),
            Step::Slice { .. } => Some("slice"),
        }
    }

    /// Makes the step with the memory of one side; gives the status of a call.
    pub fn make(&self, memory: &mut Memory, calls: &Calls, shift: usize) -> Option<u64> {
        match self {
            Step::Lend(buffer, bytes) => {
                memory.stores[*buffer] = Lent::new(bytes, shift);
                None
            }
            Step::State(bytes, _) => {
                memory.state = Lent::new(bytes, shift);
                None
            }
            Step::Open { bitmap } => Some((calls.open)(
                memory.state.get_mut(),
                *bitmap,
                &mut memory.stores.lend(),
            )),
            Step::Request {
                flags,
                request,
                data,
            } => {
                memory.request = Lent::new(request, shift);
                memory.data = Lent::new(data, shift / 3);
                Some((calls.request)(
                    memory.state.get_mut(),
                    *flags,
                    memory.request.get(),
                    memory.data.get(),
                    &mut memory.stores.lend(),
                ))
            }
            Step::Read { format, answer } => {
                memory.answer = Lent::new(answer, shift);
                Some((calls.read_log)(
                    memory.state.get_mut(),
                    *format,
                    &memory.stores.lend(),
                    memory.answer.get_mut(),
                ))
            }
            Step::Replay(bytes, _) => {
                memory.replay = Lent::new(bytes, shift);
                None
            }
            Step::Log(bytes, _) => {
                memory.log = Lent::new(bytes, shift);
                None
            }
            Step::Begin { format } => Some((calls.begin)(
                memory.replay.get_mut(),
                *format,
                memory.log.get(),
            )),
            Step::Slice { asked, answer } => {
                memory.answer = Lent::new(answer, shift);
                Some((calls.slice)(
                    memory.replay.get_mut(),
                    memory.log.get(),
                    *asked,
                    memory.answer.get_mut(),
                ))
            }
        }
    }

    pub fn words(&self) -> String {
        match self {
            Step::Lend(buffer, bytes) => {
                format!("lend {} bytes as the {} buffer", bytes.len(), buffer.name())
            }
            Step::State(bytes, words) => {
                format!("lend {} bytes as the state: {words}", bytes.len())
            }
            Step::Open { bitmap } => format!("open with bitmap {bitmap:#x}"),
            Step::Request {
                flags,
                request,
                data,
            } => format!(
                "request with flags {flags:#x}, {}, {} bytes of data",
                request_words(request),
                data.len()
            ),
            Step::Read { format, answer } => format!(
                "read the log of format {format} into a record of {} bytes",
                answer.len()
            ),
            Step::Replay(bytes, words) => {
                format!("lend {} bytes as the replay: {words}", bytes.len())
            }
            Step::Log(bytes, words) => format!("lend a log of {} bytes: {words}", bytes.len()),
            Step::Begin { format } => format!("begin with format {format}"),
            Step::Slice { asked, answer } => format!(
                "take a slice of {asked} into a record of {} bytes",
                answer.len()
            ),
        }
    }
}

fn request_words(request: &[u8]) -> String {
    let lent = format!("{} bytes lent", request.len());
    let Some(head) = Head::of(request) else {
        return lent;
    };
    format!(
        "{lent} (size {}, header size {}, register {}, type {:#x})",
        head.size, head.header_size, head.register, head.kind
    )
}
