//! A program without the standard library and without a heap: a link of MLD in static arrays. Its status is 0 if the link does what it
//! should.

#![no_std]
#![no_main]

use mquerier::{Config, Envelope, Fault, Link, Mld, Workspace};

#[panic_handler]
fn panicked(_: &core::panic::PanicInfo) -> ! {
    // The C library has the first instructions of a program, and memcpy, memmove and memset for the archive.
    #[link(name = "c")]
    extern "C" {
        fn abort() -> !;
    }
    // SAFETY: it takes no argument and does not return.
    unsafe { abort() }
}

/// Stands for the function that unwinds, since `core` is compiled for it. Nothing calls it.
#[no_mangle]
pub extern "C" fn rust_eh_personality() {}

const OWN: [u8; 16] = [0xfe, 0x80, 0, 0, 0, 0, 0, 0, 0, 0, 0, 0, 0, 0, 0, 9];
const HOST: [u8; 16] = [0xfe, 0x80, 0, 0, 0, 0, 0, 0, 0, 0, 0, 0, 0, 0, 0, 1];
const ROUTERS: [u8; 16] = [0xff, 2, 0, 0, 0, 0, 0, 0, 0, 0, 0, 0, 0, 0, 0, 0x16];
const GROUP: [u8; 16] = [0xff, 0x0e, 0, 0, 0, 0, 0, 0, 0, 0, 0, 0, 0, 0, 0x12, 0x34];

static mut MEMORY: [u8; Mld::size(16, 64)] = [0; Mld::size(16, 64)];
static mut WORK: [u8; Mld::workspace_size(16, 8)] = [0; Mld::workspace_size(16, 8)];

/// Returns a Report of TO_EX {} for the group.
fn report() -> [u8; 28] {
    let mut message = [0; 28];
    (message[0], message[7], message[8]) = (143, 1, 4);
    message[12..].copy_from_slice(&GROUP);
    let words = [&HOST[..], &ROUTERS, &message]
        .map(|it| it.chunks(2).map(|it| u32::from(it[0]) << 8 | u32::from(it[1])).sum::<u32>());
    let sum: u32 = words.iter().sum::<u32>() + 58 + 28;
    message[2..4].copy_from_slice(&(!((sum & 0xffff) + (sum >> 16)) as u16).to_be_bytes());
    message
}

fn played(memory: &mut [u8], work: &mut [u8]) -> Result<bool, Fault> {
    let config = Config::<Mld>::new(OWN).groups(16).group_sources(8).sources(64);
    let (mut link, mut workspace) = (Link::init(&config, 0, memory)?, Workspace::init(&config, work)?);
    let mut queries = [0; 2048];
    let begun = link.tick(&mut workspace, 0, &mut queries)?.queries().all(|it| it.message.len() == 28);
    let envelope = Envelope { source: HOST, destination: ROUTERS, hop_limit: 1, alert: true };
    let answer = link.receive(&mut workspace, &envelope, &report(), 40, &mut queries)?;
    Ok(begun && answer.applied == 1 && workspace.changed().eq([GROUP]) && link.forwards(GROUP, HOST))
}

#[no_mangle]
pub extern "C" fn main() -> i32 {
    // SAFETY: this is called once, and nobody else names the arrays.
    let (memory, work) = unsafe { (&mut *core::ptr::addr_of_mut!(MEMORY), &mut *core::ptr::addr_of_mut!(WORK)) };
    match played(memory, work) {
        Ok(true) => 0,
        Ok(false) => 1,
        Err(_) => 2,
    }
}
