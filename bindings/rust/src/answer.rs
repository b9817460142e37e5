//! What a call returns.

use crate::{raw, Family, Fault};
use core::fmt;
use core::marker::PhantomData;

/// What a call did.
#[must_use = "an answer has the queries to be sent"]
pub struct Answer<'q, F: Family> {
    /// Why the datagram was dropped, if it was: the lowest reason that holds.
    pub dropped: Option<Dropped>,
    /// Records of the datagram that were applied. An older Report, a Leave or a Done is a record too.
    pub applied: u32,
    /// Records that say nothing for this link.
    pub ignored: u32,
    /// Records that would exceed a limit.
    pub refused: u32,
    /// Queries that are there to be sent.
    pub sent: u32,
    /// Queries that did not fit, and are lost as on a link that loses them.
    pub unsent: u32,
    written: &'q [u8],
    family: PhantomData<fn() -> F>,
}

impl<'q, F: Family> Answer<'q, F> {
    pub(crate) fn of(raw: raw::Answer, queries: &'q [u8]) -> Result<Self, Fault> {
        Fault::of_status(raw.status)?;
        Ok(Answer {
            dropped: Dropped::of(raw.dropped),
            applied: raw.applied,
            ignored: raw.ignored,
            refused: raw.refused,
            sent: raw.sent,
            unsent: raw.unsent,
            written: queries.get(..raw.written as usize).unwrap_or(&[]),
            family: PhantomData,
        })
    }

    /// Returns the queries to be sent, in order.
    pub fn queries(&self) -> Queries<'q, F> {
        Queries { left: self.written, family: PhantomData }
    }
}

impl<F: Family> fmt::Debug for Answer<'_, F> {
    fn fmt(&self, to: &mut fmt::Formatter<'_>) -> fmt::Result {
        to.debug_struct("Answer")
            .field("dropped", &self.dropped)
            .field("applied", &self.applied)
            .field("ignored", &self.ignored)
            .field("refused", &self.refused)
            .field("sent", &self.sent)
            .field("unsent", &self.unsent)
            .finish_non_exhaustive()
    }
}

/// A query. The caller sends it from the own address, with a TTL or hop limit of 1 and the Router Alert option.
#[derive(Clone, Copy, Debug, PartialEq, Eq)]
pub struct Query<'q, A> {
    /// The destination of its packet.
    pub destination: A,
    /// The message without the IP header.
    pub message: &'q [u8],
}

/// The queries of a call. In memory each is its destination, the length of its message in two bytes, and its message.
#[derive(Clone)]
pub struct Queries<'q, F> {
    left: &'q [u8],
    family: PhantomData<fn() -> F>,
}

impl<'q, F: Family> Iterator for Queries<'q, F> {
    type Item = Query<'q, F::Address>;

    fn next(&mut self) -> Option<Self::Item> {
        let width = core::mem::size_of::<F::Address>();
        let (head, rest) = (self.left.get(..width + 2)?, self.left.get(width + 2..)?);
        let length = usize::from(head[width]) << 8 | usize::from(head[width + 1]);
        let query = Query { destination: F::Address::try_from(&head[..width]).ok()?, message: rest.get(..length)? };
        self.left = &rest[length..];
        Some(query)
    }
}

/// Why a datagram was dropped.
#[derive(Clone, Copy, Debug, PartialEq, Eq, Hash)]
#[non_exhaustive]
pub enum Dropped {
    /// A field is truncated.
    Truncated = 1,
    /// The checksum is wrong.
    Checksum,
    /// The type is unknown.
    UnknownType,
    /// A query has a length of no version.
    QueryLength,
    /// The source is not link-local.
    Source,
    /// The hop limit is not 1.
    HopLimit,
    /// The packet has no Router Alert option.
    NoAlert,
    /// A query from the own address or from 0.0.0.0.
    OwnOrZero,
    /// A query of IGMPv1.
    Igmpv1Query,
    /// An older message for a group that hosts do not report.
    Group,
    /// A reason that this crate does not know.
    Other,
}

impl Dropped {
    const ALL: [Dropped; 10] = [
        Dropped::Truncated,
        Dropped::Checksum,
        Dropped::UnknownType,
        Dropped::QueryLength,
        Dropped::Source,
        Dropped::HopLimit,
        Dropped::NoAlert,
        Dropped::OwnOrZero,
        Dropped::Igmpv1Query,
        Dropped::Group,
    ];

    fn of(reason: u32) -> Option<Dropped> {
        (reason > 0).then(|| Dropped::ALL.get(reason as usize - 1).copied().unwrap_or(Dropped::Other))
    }
}

impl fmt::Display for Dropped {
    fn fmt(&self, to: &mut fmt::Formatter<'_>) -> fmt::Result {
        to.write_str(match self {
            Dropped::Truncated => "a field is truncated",
            Dropped::Checksum => "the checksum is wrong",
            Dropped::UnknownType => "the type is unknown",
            Dropped::QueryLength => "a query of a length that no version has",
            Dropped::Source => "the source is not link-local",
            Dropped::HopLimit => "the hop limit is not 1",
            Dropped::NoAlert => "no Router Alert option",
            Dropped::OwnOrZero => "a query from the own address or from 0.0.0.0",
            Dropped::Igmpv1Query => "a query of IGMPv1",
            Dropped::Group => "a group that hosts do not report",
            Dropped::Other => "not a reason",
        })
    }
}
