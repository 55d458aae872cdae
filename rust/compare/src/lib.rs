//! The comparison: calls, who answers them, and what is counted.

pub mod answers;
pub mod apart;
#[cfg(feature = "port")]
pub mod bytes;
pub mod inputs;
pub mod known;
pub mod pairs;
#[cfg(feature = "port")]
pub mod port;
pub mod run;
pub mod sections;
pub mod seed;
pub mod theirs;
pub mod twists;

pub use run::{Run, Stopped};
pub use seed::Seed;
