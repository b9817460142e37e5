//! The configuration of a link.

use crate::raw::{self, mq_version, ALLOW, DENY, UNUSED, VERSION};
use crate::{Family, IntoAddress};

/// The configuration of a link: the standards' defaults, unless a call of the builder sets another value. What is out of range is
/// reported when a link is made.
#[derive(Debug)]
pub struct Config<F: Family> {
    pub(crate) raw: raw::Config<F::Address>,
}

impl<F: Family> Clone for Config<F> {
    fn clone(&self) -> Self {
        *self
    }
}

impl<F: Family> Copy for Config<F> {}

macro_rules! setters {
    ($($(#[$doc:meta])* $name:ident)*) => {
        $(
            $(#[$doc])*
            #[must_use]
            pub fn $name(mut self, $name: u32) -> Self {
                self.raw.$name = $name;
                self
            }
        )*
    };
}

impl<F: Family> Config<F> {
    /// Returns the defaults of RFC 3376 section 8 and RFC 3810 section 9. `own` is the source address of queries: for IGMP not 0.0.0.0, nor
    /// 224.0.0.0 or above; for MLD of fe80::/10.
    ///
    /// # Panics
    ///
    /// If the archive has another version than this crate is for.
    pub fn new(own: impl IntoAddress<F>) -> Self {
        let own = own.into_address();
        // All other calls need a configuration, so here "a program checks once that `mq_version`, that of the archive, returns the same".
        // SAFETY: "A pointer points to as many elements as its prototype or its length says": `own` is one address.
        let (version, raw) = unsafe { (mq_version(), (F::CALLS.defaults)(&own)) };
        assert_eq!(version, VERSION, "libmquerier has another version than this crate is for");
        Config { raw }
    }

    setters! {
        /// Sets the Robustness Variable, 1 to 7.
        robustness
        /// Sets the Query Interval in seconds, 1 to 31744.
        query_interval
        /// Sets the Query Response Interval in milliseconds, 100 to 3174400, for MLD 1 to 8387584; below the query interval.
        response_interval
        /// Sets the Last Member Query Interval in milliseconds, 100 to 3174400, for MLD 1 to 8387584.
        last_member_interval
        /// Sets the Last Member Query Count, 1 to 7; 0 stands for the Robustness Variable in force.
        last_member_query_count
        /// Sets how many groups the link may have, 1 to 65535.
        groups
        /// Sets how many sources a group may have, 1 to 1024.
        group_sources
        /// Sets how many sources all groups may have together, 1 to 65535.
        sources
        /// Sets how many schedules of specific queries there may be, 1 to 65535; a group has up to two.
        scheduled
    }

    /// Keeps 232.0.0.0/8 or ff3x::/32 for source-specific multicast (RFC 4604).
    #[must_use]
    pub fn source_specific(mut self, is_kept: bool) -> Self {
        self.raw.source_specific = is_kept.into();
        self
    }

    /// Adds a range of groups for which hosts may ask: those that share the first `length` bits of `address`. The first range that has
    /// a group decides. A group in no range may be asked for, unless some range allows its groups.
    ///
    /// # Panics
    ///
    /// If there are 16 ranges already.
    #[must_use]
    pub fn allow(self, address: impl IntoAddress<F>, length: u8) -> Self {
        self.with_range(address.into_address(), length, ALLOW)
    }

    /// Adds a range of groups for which hosts may not ask: records for them are ignored, and counted as `denied`.
    ///
    /// # Panics
    ///
    /// If there are 16 ranges already.
    #[must_use]
    pub fn deny(self, address: impl IntoAddress<F>, length: u8) -> Self {
        self.with_range(address.into_address(), length, DENY)
    }

    /// Removes all ranges, so that hosts may ask for every group.
    #[must_use]
    pub fn without_ranges(mut self) -> Self {
        self.raw.ranges.iter_mut().for_each(|it| it.rule = UNUSED);
        self
    }

    fn with_range(mut self, address: F::Address, length: u8, rule: u8) -> Self {
        let place = self.raw.ranges.iter_mut().find(|it| it.rule == UNUSED);
        *place.expect("a link has at most 16 ranges") = raw::Range { address, length, rule };
        self
    }

    /// Returns how many bytes suffice for a link, wherever they begin.
    pub fn size(&self) -> usize {
        // SAFETY: "All other arguments are safe": a configuration, and numbers.
        unsafe { (F::CALLS.size)(self.raw) }
    }

    /// Returns how many bytes suffice for a workspace, wherever they begin.
    pub fn workspace_size(&self) -> usize {
        // SAFETY: "All other arguments are safe": a configuration, and numbers.
        unsafe { (F::CALLS.workspace_size)(self.raw) }
    }

    /// Returns how much room for queries suffices for each call, if no body is longer than `longest_body`: 1480 bytes on Ethernet.
    pub fn outlet_bytes(&self, longest_body: u32) -> usize {
        // SAFETY: "All other arguments are safe": a configuration, and numbers.
        unsafe { (F::CALLS.outlet_bytes)(self.raw, longest_body) }
    }
}
