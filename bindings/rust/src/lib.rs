//! Assembles, shows, runs and steps through definitions of LLB, in this process. docs/EMBEDDING.md of the repository describes each call.
//!
//! `trees` has the trees that come of runs, and `testing` what tests of a frontend need. Where no archive of the library is found
//! when the crate is built, there is no `Machine`, and `testing` runs the program.

pub mod testing;
pub mod trees;

#[cfg(llbm_library)]
mod machine;
#[cfg(llbm_library)]
pub use machine::{version, Machine};

use std::fmt;

/// Why a call failed.
#[derive(Clone, Debug, PartialEq, Eq)]
pub struct Fault {
    /// 1: a vertex failed; 2: what was handed in is refused; 3: memory was refused; 4: no session is open.
    pub status: u8,
    /// The number of the fault; `None` where the messages have none.
    pub number: Option<u32>,
    /// The lines of the fault, or of the vertices that failed.
    pub messages: String,
}

impl fmt::Display for Fault {
    fn fmt(&self, f: &mut fmt::Formatter<'_>) -> fmt::Result {
        write!(f, "status {}: {}", self.status, self.messages.trim_end())
    }
}

impl std::error::Error for Fault {}

impl Fault {
    /// The fault of a status of the library, or of the program, and its lines.
    pub fn of(status: u8, messages: String) -> Fault {
        let number = messages.strip_prefix("fault ").and_then(|rest| rest.split_whitespace().next()).and_then(|word| word.parse().ok());
        Fault { status, number, messages }
    }
}
