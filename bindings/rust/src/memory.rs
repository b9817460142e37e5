//! The memory of links and workspaces.

use crate::raw::Units;
#[cfg(feature = "alloc")]
use alloc::vec::Vec;
use core::marker::PhantomData;

/// Sixteen bytes at a multiple of 16.
#[repr(C, align(16))]
pub(crate) struct Unit([u8; 16]);

/// The memory of one link or workspace: lent for `'m`, or owned. Nobody else reads or writes it, and it does not move with this value.
pub(crate) struct Block<'m> {
    _lent: PhantomData<&'m mut [u8]>,
    // It has no items: the library writes into its room.
    #[cfg(feature = "alloc")]
    _owned: Vec<Unit>,
}

/// Returns the whole units in lent memory.
pub(crate) fn lent(memory: &mut [u8]) -> (Units, Block<'_>) {
    // SAFETY: any bytes are a `Unit`, and the other way round. This makes "Memory in whole units of 16 bytes, which begins at a
    // multiple of 16".
    let (_, units, _) = unsafe { memory.align_to_mut::<Unit>() };
    let block = Block {
        _lent: PhantomData,
        #[cfg(feature = "alloc")]
        _owned: Vec::new(),
    };
    (Units { first: units.as_mut_ptr().cast(), units: units.len() }, block)
}

/// Returns units of the heap in which `size` bytes fit wherever they begin; or none, if the heap has not as many.
#[cfg(feature = "alloc")]
pub(crate) fn owned(size: usize) -> (Units, Block<'static>) {
    let mut room = Vec::<Unit>::new();
    let wanted = size / core::mem::size_of::<Unit>();
    let fits = size <= isize::MAX as usize && room.try_reserve_exact(wanted).is_ok();
    let units = if fits { wanted } else { 0 };
    (Units { first: room.as_mut_ptr().cast(), units }, Block { _lent: PhantomData, _owned: room })
}
