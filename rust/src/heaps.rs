//! Logs of allocators: whether each live object can have a capability whose bounds reach no other object.
use crate::abi;
use crate::judges::{Fault, NO, YES};
use crate::refusals::Refusal;
use std::fmt;

const TEXT_SIZE: usize = 1280;

/// The verdict on a log of an allocator. It is displayed as `capdiag heap` prints it.
#[derive(Clone, Copy, Debug, PartialEq, Eq, Hash)]
pub enum HeapVerdict {
    /// The log is accepted.
    Yes {
        /// The number of malloc and free lines.
        events: u32,
        /// How many objects are live at the end.
        live: u64,
    },
    /// The log is rejected.
    No {
        /// The number of the faulty line, counted from 1.
        line: u64,
        /// The first check that this line fails.
        refusal: Refusal,
    },
}

impl fmt::Display for HeapVerdict {
    fn fmt(&self, to: &mut fmt::Formatter<'_>) -> fmt::Result {
        match self {
            HeapVerdict::Yes { events, live } => write!(to, "yes {events} {live}"),
            HeapVerdict::No { line, refusal } => write!(to, "no {line} {} {refusal}", *refusal as u8),
        }
    }
}

/// The verdict on the log of an allocator in memory. The only fault is [`Fault::NoMemory`].
pub fn judge_heap_bytes(log: &[u8]) -> Result<HeapVerdict, Fault> {
    explain_heap_bytes(log).map(|(verdict, _)| verdict)
}

/// The same, with what `capdiag heap --report --why` prints: the verdict, and after a `yes` the report, after a `no` the
/// diagnosis of the faulty line.
pub fn explain_heap_bytes(log: &[u8]) -> Result<(HeapVerdict, String), Fault> {
    let mut text = [0; TEXT_SIZE];
    let found = unsafe { abi::capcheck_heap_judge_why(log.as_ptr(), log.len(), text.as_mut_ptr(), text.len()) };
    let abi::HeapAnswer { line, live, events, state, refusal } = found.answer;
    let verdict = match state {
        YES => HeapVerdict::Yes { events, live },
        NO => HeapVerdict::No { line, refusal: Refusal::of(refusal).expect("a refused line has a refusal") },
        _ => return Err(Fault::NoMemory),
    };
    Ok((verdict, String::from_utf8_lossy(&text[..found.length as usize]).into_owned()))
}
