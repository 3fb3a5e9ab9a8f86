//! 128-bit CHERI capabilities with 64-bit addresses, over the proved C libraries `libcapcheck_c` and `libcapcheck_judge`:
//! words, bounds, operations, the lines of logs and of run logs, and their judges, which an emulator asks after each step; and
//! the judge of allocators' logs.
//!
//! ```
//! use capcheck::{permissions, Capability, Judge, Line, Refusal, Verdict};
//!
//! let root = Capability::root(0, 1 << 64, permissions::ALL_PERMISSIONS).unwrap();
//! let object = root.set_address(0x1000)?.set_bounds(0x20)?;
//! assert_eq!(object.to_string(), "0x1000 [rwxRW,0x1000-0x1020]");
//! assert_eq!(object.set_bounds(0x21), Err(Refusal::BoundsEscape));
//!
//! let mut judge = Judge::new()?;
//! judge.pass(&Line::Version(1))?;
//! judge.pass(&Line::Root { target: 1, word: root.word() })?;
//! judge.pass(&Line::SetAddress { target: 2, source: 1, address: 0x1000, recorded: root.set_address(0x1000)? })?;
//! assert_eq!(judge.register(2), Some(root.set_address(0x1000)?));
//! judge.pass(&Line::End { steps: 1 })?;
//! assert_eq!(judge.end(), Verdict::Yes { steps: 1, roots: 1 });
//! # Ok::<(), Box<dyn std::error::Error>>(())
//! ```
//!
//! Each function calls the function of the C headers that does the same; these say more of what it returns.
#![warn(missing_docs)]

mod abi;
mod heaps;
mod judges;
mod lines;
pub mod permissions;
mod refusals;
mod runs;
mod words;

pub use heaps::{explain_heap_bytes, judge_heap_bytes, HeapVerdict};
pub use judges::{judge_bytes, Expected, Fault, Judge, Place, Verdict};
pub use lines::{read_lines, Line, LineText, OutOfRange, ReadLines};
pub use refusals::Refusal;
pub use runs::{judge_run_bytes, Asks, Object, RunJudge, RunLine, RunPlace, RunVerdict};
pub use words::*;

/// The version of the libraries, such as `1.3.0-dev`.
pub fn version() -> String {
    abi::text(&unsafe { abi::capcheck_version() }.text)
}
