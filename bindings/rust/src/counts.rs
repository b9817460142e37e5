//! What a link has counted.

use crate::raw::COUNTERS;
use crate::Dropped;

/// What a link has counted since it was made. A counter stays at its greatest value.
#[repr(C)]
#[derive(Clone, Copy, Debug, Default, PartialEq, Eq)]
#[non_exhaustive]
pub struct Counts {
    /// Datagrams.
    pub received: u64,
    /// Datagrams that were dropped.
    pub dropped: u64,
    dropped_by: [u64; 10],
    parsed: [u64; 5],
    /// Records that were applied.
    pub applied: u64,
    /// Records that were ignored.
    pub ignored: u64,
    /// Records that would have exceeded a limit.
    pub refused: u64,
    refused_by: [u64; 7],
    /// Queries that the caller got.
    pub sent: u64,
    /// Queries that did not fit, and are lost.
    pub unsent: u64,
    /// Ignored records for groups that the ranges do not allow.
    pub denied: u64,
}

const _: () = assert!(core::mem::size_of::<Counts>() == 8 * COUNTERS);

impl Counts {
    /// Returns how many datagrams were dropped for a reason.
    pub fn dropped_by(&self, reason: Dropped) -> u64 {
        self.dropped_by.get(reason as usize - 1).copied().unwrap_or(0)
    }

    /// Returns how many datagrams of a kind were parsed.
    pub fn parsed(&self, kind: Parsed) -> u64 {
        self.parsed[kind as usize]
    }

    /// Returns how many records were refused for a limit.
    pub fn refused_by(&self, limit: Refused) -> u64 {
        self.refused_by[limit as usize]
    }
}

/// The kinds of datagrams that are parsed.
#[derive(Clone, Copy, Debug, PartialEq, Eq)]
pub enum Parsed {
    /// A query of IGMPv3 or MLDv2.
    Query,
    /// A query of IGMPv1, IGMPv2 or MLDv1.
    OlderQuery,
    /// A Report of an older version.
    OlderReport,
    /// A Leave or a Done.
    Leave,
    /// A Report of IGMPv3 or MLDv2.
    Report,
}

/// The limit that a record would exceed.
#[derive(Clone, Copy, Debug, PartialEq, Eq)]
pub enum Refused {
    /// The record has more sources than `group_sources`.
    Long,
    /// Four records of its datagram came before it while the link had its group.
    Repeated,
    /// The limit of groups.
    Groups,
    /// The limit of the sources of a group.
    GroupSources,
    /// The limit of the sources of all groups.
    Sources,
    /// The limit of schedules of specific queries.
    Scheduled,
    /// Memory, which never lacks.
    Memory,
}
