//! What the IP packet of a datagram says.

#[cfg(feature = "std")]
use std::net::{Ipv4Addr, Ipv6Addr};

/// What the IP packet of a datagram says. IGMP looks at the source alone, so an address stands for an envelope of it.
#[derive(Clone, Copy, Debug, PartialEq, Eq)]
pub struct Envelope<A = [u8; 16]> {
    /// The source of the packet.
    pub source: A,
    /// The destination of the packet, which the checksum of MLD covers.
    pub destination: A,
    /// The hop limit of the packet, or its TTL.
    pub hop_limit: u8,
    /// Whether the packet has the Router Alert option.
    pub alert: bool,
}

impl<A: Copy> From<&Envelope<A>> for Envelope<A> {
    fn from(it: &Envelope<A>) -> Self {
        *it
    }
}

impl From<[u8; 4]> for Envelope<[u8; 4]> {
    fn from(source: [u8; 4]) -> Self {
        Envelope { source, destination: [0; 4], hop_limit: 1, alert: true }
    }
}

#[cfg(feature = "std")]
impl From<Ipv4Addr> for Envelope<[u8; 4]> {
    fn from(source: Ipv4Addr) -> Self {
        source.octets().into()
    }
}

#[cfg(feature = "std")]
impl From<Envelope<Ipv4Addr>> for Envelope<[u8; 4]> {
    fn from(it: Envelope<Ipv4Addr>) -> Self {
        let Envelope { source, destination, hop_limit, alert } = it;
        Envelope { source: source.octets(), destination: destination.octets(), hop_limit, alert }
    }
}

#[cfg(feature = "std")]
impl From<Envelope<Ipv6Addr>> for Envelope<[u8; 16]> {
    fn from(it: Envelope<Ipv6Addr>) -> Self {
        let Envelope { source, destination, hop_limit, alert } = it;
        Envelope { source: source.octets(), destination: destination.octets(), hop_limit, alert }
    }
}
