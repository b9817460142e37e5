//! The declarations of `include/mquerier.h`, for both families.

use core::ffi::c_void;

pub(crate) const VERSION: u32 = 3;
pub(crate) const DONE: u32 = 0;
pub(crate) const RANGES: usize = 16;
pub(crate) const UNUSED: u8 = 0;
pub(crate) const ALLOW: u8 = 1;
pub(crate) const DENY: u8 = 2;
pub(crate) const NONE: u64 = u64::MAX;
pub(crate) const COUNTERS: usize = 30;

/// A link, or a workspace.
#[repr(C)]
pub struct Handle(pub(crate) *mut c_void);

/// Memory in whole units of 16 bytes.
#[repr(C)]
#[derive(Clone, Copy)]
pub struct Units {
    pub(crate) first: *mut c_void,
    pub(crate) units: usize,
}

/// A range of groups; a rule of 0 is an unused place.
#[repr(C)]
#[derive(Clone, Copy, Debug)]
pub struct Range<A> {
    pub(crate) address: A,
    pub(crate) length: u8,
    pub(crate) rule: u8,
}

#[repr(C)]
#[derive(Clone, Copy, Debug)]
pub struct Config<A> {
    pub(crate) robustness: u32,
    pub(crate) query_interval: u32,
    pub(crate) response_interval: u32,
    pub(crate) last_member_interval: u32,
    pub(crate) last_member_query_count: u32,
    pub(crate) groups: u32,
    pub(crate) group_sources: u32,
    pub(crate) sources: u32,
    pub(crate) scheduled: u32,
    pub(crate) own: A,
    pub(crate) source_specific: u8,
    pub(crate) ranges: [Range<A>; RANGES],
}

#[repr(C)]
pub struct Answer {
    pub(crate) status: u32,
    pub(crate) dropped: u32,
    pub(crate) applied: u32,
    pub(crate) ignored: u32,
    pub(crate) refused: u32,
    pub(crate) sent: u32,
    pub(crate) unsent: u32,
    pub(crate) written: u64,
}

/// A group: `hosts` has until when hosts of version 1, and of IGMPv2, are assumed.
#[repr(C)]
#[derive(Clone, Copy)]
pub struct Group<A, H> {
    pub(crate) address: A,
    pub(crate) sources: u32,
    pub(crate) deadline: u64,
    pub(crate) hosts: H,
}

#[repr(C)]
#[derive(Clone, Copy)]
pub struct Source<A> {
    pub(crate) address: A,
    pub(crate) deadline: u64,
}

#[repr(C)]
pub struct Page {
    pub(crate) groups: u32,
    pub(crate) sources: u32,
}

/// The calls of one family that have the same form in both.
pub struct Calls<A: 'static, H: 'static> {
    pub(crate) defaults: unsafe extern "C" fn(*const A) -> Config<A>,
    pub(crate) size: unsafe extern "C" fn(Config<A>) -> usize,
    pub(crate) workspace_size: unsafe extern "C" fn(Config<A>) -> usize,
    pub(crate) init_units: unsafe extern "C" fn(Config<A>, u64, Units, *mut Handle) -> u32,
    pub(crate) workspace_init_units: unsafe extern "C" fn(Config<A>, Units, *mut Handle) -> u32,
    pub(crate) configure: unsafe extern "C" fn(*mut Handle, Config<A>) -> u32,
    pub(crate) outlet_bytes: unsafe extern "C" fn(Config<A>, u32) -> usize,
    pub(crate) tick: unsafe extern "C" fn(*mut Handle, *mut Handle, u64, *mut u8, usize) -> Answer,
    pub(crate) next_deadline: unsafe extern "C" fn(*const Handle) -> u64,
    pub(crate) forwards: unsafe extern "C" fn(*const Handle, *const A, *const A) -> bool,
    pub(crate) changed: unsafe extern "C" fn(*const Handle, u32, *mut A, usize) -> u32,
    pub(crate) group_at: unsafe extern "C" fn(*const Handle, *const A, *mut Group<A, H>, *mut Source<A>, usize) -> Page,
    pub(crate) len: unsafe extern "C" fn(*const Handle) -> u32,
    pub(crate) groups: unsafe extern "C" fn(*const Handle, u32, *mut Group<A, H>, usize, *mut Source<A>, usize) -> Page,
    pub(crate) is_querier: unsafe extern "C" fn(*const Handle) -> bool,
    pub(crate) other_querier: unsafe extern "C" fn(*const Handle, *mut A, usize) -> u64,
    pub(crate) counters: unsafe extern "C" fn(*const Handle, *mut u64, usize) -> usize,
}

extern "C" {
    pub(crate) fn mq_version() -> u32;
}

// The module of a family: its calls by their names without the prefix, and a table of those that have the same form in both.
macro_rules! family {
    ($module:ident, $prefix:literal, $address:ty, $hosts:ty, ($($envelope:ident: $of:ty),*), ($($end:ident: $ends:ty),*)) => {
        pub(crate) mod $module {
            use super::*;

            extern "C" {
                #[link_name = concat!($prefix, "defaults")]
                fn defaults(own: *const $address) -> Config<$address>;
                #[link_name = concat!($prefix, "size")]
                fn size(config: Config<$address>) -> usize;
                #[link_name = concat!($prefix, "workspace_size")]
                fn workspace_size(config: Config<$address>) -> usize;
                #[link_name = concat!($prefix, "init_units")]
                fn init_units(config: Config<$address>, start: u64, memory: Units, link: *mut Handle) -> u32;
                #[link_name = concat!($prefix, "workspace_init_units")]
                fn workspace_init_units(config: Config<$address>, memory: Units, workspace: *mut Handle) -> u32;
                #[link_name = concat!($prefix, "configure")]
                fn configure(link: *mut Handle, config: Config<$address>) -> u32;
                #[link_name = concat!($prefix, "outlet_bytes")]
                fn outlet_bytes(config: Config<$address>, longest_body: u32) -> usize;
                #[link_name = concat!($prefix, "tick")]
                fn tick(link: *mut Handle, workspace: *mut Handle, now: u64, queries: *mut u8, room: usize) -> Answer;
                #[link_name = concat!($prefix, "next_deadline")]
                fn next_deadline(link: *const Handle) -> u64;
                #[link_name = concat!($prefix, "forwards")]
                fn forwards(link: *const Handle, group: *const $address, source: *const $address) -> bool;
                #[link_name = concat!($prefix, "changed")]
                fn changed(workspace: *const Handle, first: u32, addresses: *mut $address, room: usize) -> u32;
                #[link_name = concat!($prefix, "group_at")]
                fn group_at(
                    link: *const Handle,
                    address: *const $address,
                    group: *mut Group<$address, $hosts>,
                    sources: *mut Source<$address>,
                    room: usize,
                ) -> Page;
                #[link_name = concat!($prefix, "len")]
                fn len(link: *const Handle) -> u32;
                #[link_name = concat!($prefix, "groups")]
                fn groups(
                    link: *const Handle,
                    first: u32,
                    groups: *mut Group<$address, $hosts>,
                    group_room: usize,
                    sources: *mut Source<$address>,
                    source_room: usize,
                ) -> Page;
                #[link_name = concat!($prefix, "is_querier")]
                fn is_querier(link: *const Handle) -> bool;
                #[link_name = concat!($prefix, "other_querier")]
                fn other_querier(link: *const Handle, address: *mut $address, room: usize) -> u64;
                #[link_name = concat!($prefix, "counters")]
                fn counters(link: *const Handle, counters: *mut u64, count: usize) -> usize;
                #[link_name = concat!($prefix, "receive")]
                pub(crate) fn receive(
                    link: *mut Handle,
                    workspace: *mut Handle,
                    $($envelope: $of,)*
                    body: *const u8,
                    length: usize,
                    now: u64,
                    queries: *mut u8,
                    room: usize,
                ) -> Answer;
                #[link_name = concat!($prefix, "line")]
                pub(crate) fn line($($end: $ends,)* body: *const u8, length: usize, line: *mut u8, room: usize) -> usize;
            }

            pub(crate) const CALLS: Calls<$address, $hosts> = Calls {
                defaults, size, workspace_size, init_units, workspace_init_units, configure, outlet_bytes, tick, next_deadline, forwards,
                changed, group_at, len, groups, is_querier, other_querier, counters,
            };
        }
    };
}

family!(igmp, "mq_igmp_", [u8; 4], [u64; 2], (source: *const [u8; 4]), ());
family!(
    mld, "mq_mld_", [u8; 16], [u64; 1],
    (source: *const [u8; 16], destination: *const [u8; 16], hop_limit: u8, alert: bool),
    (source: *const [u8; 16], destination: *const [u8; 16])
);
