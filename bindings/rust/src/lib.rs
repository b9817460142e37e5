#![doc = include_str!("../README.md")]
#![no_std]
#![warn(missing_docs, clippy::undocumented_unsafe_blocks)]

#[cfg(feature = "alloc")]
extern crate alloc;
#[cfg(feature = "std")]
extern crate std;

mod answer;
mod config;
mod counts;
mod envelope;
mod family;
mod fault;
mod groups;
mod lines;
mod link;
mod memory;
mod raw;
#[cfg(doctest)]
mod rules;
mod workspace;

pub use answer::{Answer, Dropped, Queries, Query};
pub use config::Config;
pub use counts::{Counts, Parsed, Refused};
pub use envelope::Envelope;
pub use family::{Family, Igmp, IntoAddress, Mld};
pub use fault::Fault;
pub use groups::{Group, Source};
pub use lines::{igmp_line, mld_line};
pub use link::Link;
pub use workspace::{Changed, Workspace};

/// The latest time that a call takes, 2^53 milliseconds.
pub const LATEST: u64 = 1 << 53;

/// The default limit of groups.
pub const GROUPS: usize = 1024;

/// The default limit of sources of all groups together.
pub const SOURCES: usize = 16384;
