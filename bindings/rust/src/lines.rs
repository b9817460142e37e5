//! Messages as lines for logs.

use crate::{raw, IntoAddress, Mld};
use core::str;

/// Writes a message of IGMP as a line, or the line of its fault. The line is truncated if `room` is too small.
pub fn igmp_line<'l>(body: &[u8], room: &'l mut [u8]) -> &'l str {
    // SAFETY: "A pointer points to as many elements as its prototype or its length says": these are slices.
    // "Memory that a call writes overlaps no other argument": `room` is `&mut`.
    let length = unsafe { raw::igmp::line(body.as_ptr(), body.len(), room.as_mut_ptr(), room.len()) };
    text_of(room, length)
}

/// Writes a message of MLD as a line, or the line of its fault; the addresses are those of its packet.
pub fn mld_line<'l>(
    source: impl IntoAddress<Mld>,
    destination: impl IntoAddress<Mld>,
    body: &[u8],
    room: &'l mut [u8],
) -> &'l str {
    let (source, destination) = (source.into_address(), destination.into_address());
    let (at, to, length) = (body.as_ptr(), room.as_mut_ptr(), room.len());
    // SAFETY: "A pointer points to as many elements as its prototype or its length says": these are two addresses and
    // slices. "Memory that a call writes overlaps no other argument": `room` is `&mut`.
    let length = unsafe { raw::mld::line(&source, &destination, at, body.len(), to, length) };
    text_of(room, length)
}

fn text_of(room: &[u8], length: usize) -> &str {
    room.get(..length).and_then(|it| str::from_utf8(it).ok()).unwrap_or("")
}
