//! The groups of a link.

use crate::family::sealed::Calling;
use crate::raw::{self, NONE};
use crate::Family;
use core::fmt;

fn or_none(deadline: u64) -> Option<u64> {
    (deadline != NONE).then_some(deadline)
}

/// A group, without its sources.
#[repr(transparent)]
pub struct Group<F: Family>(pub(crate) raw::Group<F::Address, <F as Calling>::Hosts>);

/// A source of a group.
#[repr(transparent)]
pub struct Source<F: Family>(pub(crate) raw::Source<F::Address>);

impl<F: Family> Group<F> {
    /// Returns its address.
    pub fn address(&self) -> F::Address {
        self.0.address
    }

    /// Returns how many sources it has.
    pub fn sources(&self) -> usize {
        self.0.sources as usize
    }

    /// Returns until when it is in EXCLUDE mode; None: it is in INCLUDE mode.
    pub fn deadline(&self) -> Option<u64> {
        or_none(self.0.deadline)
    }

    /// Returns until when a host of version 1 is assumed.
    pub fn v1(&self) -> Option<u64> {
        or_none(self.0.hosts.as_ref()[0])
    }

    /// Returns until when a host of IGMPv2 is assumed.
    pub fn v2(&self) -> Option<u64> {
        self.0.hosts.as_ref().get(1).copied().and_then(or_none)
    }
}

impl<F: Family> Source<F> {
    /// Returns its address.
    pub fn address(&self) -> F::Address {
        self.0.address
    }

    /// Returns until when its timer runs; None: no timer runs, and it is not forwarded.
    pub fn deadline(&self) -> Option<u64> {
        or_none(self.0.deadline)
    }
}

/// What a call fills arrays of; it stands for no group.
impl<F: Family> Default for Group<F> {
    fn default() -> Self {
        Group(raw::Group { address: F::ZERO, sources: 0, deadline: NONE, hosts: F::HOSTS })
    }
}

impl<F: Family> Default for Source<F> {
    fn default() -> Self {
        Source(raw::Source { address: F::ZERO, deadline: NONE })
    }
}

impl<F: Family> Clone for Group<F> {
    fn clone(&self) -> Self {
        *self
    }
}

impl<F: Family> Clone for Source<F> {
    fn clone(&self) -> Self {
        *self
    }
}

impl<F: Family> Copy for Group<F> {}
impl<F: Family> Copy for Source<F> {}

impl<F: Family> fmt::Debug for Group<F> {
    fn fmt(&self, to: &mut fmt::Formatter<'_>) -> fmt::Result {
        to.debug_struct("Group")
            .field("address", &self.address())
            .field("sources", &self.sources())
            .field("deadline", &self.deadline())
            .field("v1", &self.v1())
            .field("v2", &self.v2())
            .finish()
    }
}

impl<F: Family> fmt::Debug for Source<F> {
    fn fmt(&self, to: &mut fmt::Formatter<'_>) -> fmt::Result {
        to.debug_struct("Source").field("address", &self.address()).field("deadline", &self.deadline()).finish()
    }
}
