//! Two halves. The reference: the routing table of sigp/discv5, built from its own files (build.rs), behind the text of calls. The
//! comparison: random lists of calls, fed to two commands whose answers are held against each other line by line.

pub mod explained;
pub mod generate;
pub mod hours;
pub mod outcome;
pub mod run;
pub mod shrink;

pub use calls::{layout, program, text};

#[cfg(reference_source)]
pub mod driver;
#[cfg(reference_source)]
pub mod record;
#[cfg(reference_source)]
pub mod stand_ins;

#[cfg(reference_source)]
#[allow(dead_code, clippy::all)]
mod reference {
    include!(concat!(env!("OUT_DIR"), "/reference.rs"));
}
#[cfg(reference_source)]
pub use reference::kbucket;
