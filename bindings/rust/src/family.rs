//! The two families.

use crate::{raw, Envelope};
use core::fmt::Debug;
#[cfg(feature = "std")]
use std::net::{IpAddr, Ipv4Addr, Ipv6Addr};

pub(crate) mod sealed {
    use crate::raw::{Answer, Calls, Handle};
    use crate::Envelope;

    /// The library's calls of a family, over its addresses and the deadlines of its older hosts.
    pub trait Calling: Sized + 'static {
        type Octets: Copy + Eq + Ord + core::fmt::Debug + 'static;
        type Hosts: Copy + AsRef<[u64]> + 'static;
        const ZERO: Self::Octets;
        const HOSTS: Self::Hosts;
        const CALLS: Calls<Self::Octets, Self::Hosts>;

        /// Calls `receive` of the family. `body` and `queries` are read and written by their references alone.
        fn receive(
            link: &mut Handle,
            workspace: &mut Handle,
            envelope: &Envelope<Self::Octets>,
            body: &[u8],
            now: u64,
            queries: &mut [u8],
        ) -> Answer;
    }
}

/// A family of addresses: [`Igmp`] or [`Mld`]. A program that is generic over it serves both.
pub trait Family: sealed::Calling<Octets = Self::Address> {
    /// An address in network order, as `Ipv4Addr::octets` and `Ipv6Addr::octets` return it.
    type Address: Copy + Eq + Ord + Debug + AsRef<[u8]> + for<'a> TryFrom<&'a [u8]> + IntoAddress<Self> + 'static;

    /// The address as `Ipv4Addr` or `Ipv6Addr`.
    #[cfg(feature = "std")]
    type Ip: Copy + Eq + Ord + core::fmt::Display + From<Self::Address> + Into<IpAddr> + IntoAddress<Self> + 'static;
}

/// What calls take as an address of a family: its octets, or with the feature `std` an `Ipv4Addr` or `Ipv6Addr`.
pub trait IntoAddress<F: Family> {
    /// Returns its octets in network order.
    fn into_address(self) -> F::Address;
}

/// IGMPv3 of IPv4, RFC 3376.
#[derive(Debug)]
pub enum Igmp {}

/// MLDv2 of IPv6, RFC 3810.
#[derive(Debug)]
pub enum Mld {}

impl sealed::Calling for Igmp {
    type Octets = [u8; 4];
    type Hosts = [u64; 2];
    const ZERO: [u8; 4] = [0; 4];
    const HOSTS: [u64; 2] = [raw::NONE; 2];
    const CALLS: raw::Calls<[u8; 4], [u64; 2]> = raw::igmp::CALLS;

    fn receive(
        link: &mut raw::Handle,
        workspace: &mut raw::Handle,
        envelope: &Envelope<[u8; 4]>,
        body: &[u8],
        now: u64,
        queries: &mut [u8],
    ) -> raw::Answer {
        let (at, length, to, room) = (body.as_ptr(), body.len(), queries.as_mut_ptr(), queries.len());
        // SAFETY: "Memory that a call writes overlaps no other argument": three are `&mut`, and the rest is shared.
        // "A pointer points to as many elements as its prototype or its length says": these are slices and an address.
        unsafe { raw::igmp::receive(link, workspace, &envelope.source, at, length, now, to, room) }
    }
}

impl sealed::Calling for Mld {
    type Octets = [u8; 16];
    type Hosts = [u64; 1];
    const ZERO: [u8; 16] = [0; 16];
    const HOSTS: [u64; 1] = [raw::NONE];
    const CALLS: raw::Calls<[u8; 16], [u64; 1]> = raw::mld::CALLS;

    fn receive(
        link: &mut raw::Handle,
        workspace: &mut raw::Handle,
        envelope: &Envelope<[u8; 16]>,
        body: &[u8],
        now: u64,
        queries: &mut [u8],
    ) -> raw::Answer {
        let Envelope { source, destination, hop_limit: hops, alert } = envelope;
        let (at, length, to, room) = (body.as_ptr(), body.len(), queries.as_mut_ptr(), queries.len());
        // SAFETY: "Memory that a call writes overlaps no other argument": three are `&mut`, and the rest is shared.
        // "A pointer points to as many elements as its prototype or its length says": these are slices and addresses.
        unsafe { raw::mld::receive(link, workspace, source, destination, *hops, *alert, at, length, now, to, room) }
    }
}

impl Family for Igmp {
    type Address = [u8; 4];
    #[cfg(feature = "std")]
    type Ip = Ipv4Addr;
}

impl Family for Mld {
    type Address = [u8; 16];
    #[cfg(feature = "std")]
    type Ip = Ipv6Addr;
}

impl IntoAddress<Igmp> for [u8; 4] {
    fn into_address(self) -> [u8; 4] {
        self
    }
}

impl IntoAddress<Mld> for [u8; 16] {
    fn into_address(self) -> [u8; 16] {
        self
    }
}

#[cfg(feature = "std")]
impl IntoAddress<Igmp> for Ipv4Addr {
    fn into_address(self) -> [u8; 4] {
        self.octets()
    }
}

#[cfg(feature = "std")]
impl IntoAddress<Mld> for Ipv6Addr {
    fn into_address(self) -> [u8; 16] {
        self.octets()
    }
}

impl Igmp {
    /// The default of `group_sources`.
    pub const GROUP_SOURCES: usize = 366;

    /// Returns a size that suffices for a link, for arrays: at most 1/20 and 150 bytes more than [`Config::size`](crate::Config::size).
    pub const fn size(groups: usize, sources: usize) -> usize {
        2480 + 204 * groups + 80 * sources
    }

    /// Returns a size that suffices for a workspace.
    pub const fn workspace_size(groups: usize, group_sources: usize) -> usize {
        512 + 30 * groups + 76 * group_sources
    }
}

impl Mld {
    /// The default of `group_sources`.
    pub const GROUP_SOURCES: usize = 89;

    /// Returns a size that suffices for a link, for arrays: at most 1/20 and 150 bytes more than [`Config::size`](crate::Config::size).
    pub const fn size(groups: usize, sources: usize) -> usize {
        2528 + 248 * groups + 120 * sources
    }

    /// Returns a size that suffices for a workspace.
    pub const fn workspace_size(groups: usize, group_sources: usize) -> usize {
        464 + 90 * groups + 144 * group_sources
    }
}
