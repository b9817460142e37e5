//! The memory in which calls of links work.

use crate::family::sealed::Calling;
use crate::memory::{self, Block};
use crate::raw::{Handle, Units};
use crate::{Config, Family, Fault};
use core::fmt;
use core::marker::PhantomData;
use core::ptr;

/// The memory in which calls of links work. One serves any number of links, in any order, if its configuration allows at least their
/// `groups` and `group_sources`. Threads need one each.
pub struct Workspace<'m, F: Family> {
    pub(crate) raw: Handle,
    _block: Block<'m>,
    family: PhantomData<fn() -> F>,
}

// SAFETY: "One thread at a time uses a link or a workspace": whoever has it, since it is not `Sync`.
unsafe impl<F: Family> Send for Workspace<'_, F> {}

impl<F: Family> fmt::Debug for Workspace<'_, F> {
    fn fmt(&self, to: &mut fmt::Formatter<'_>) -> fmt::Result {
        to.debug_struct("Workspace").finish_non_exhaustive()
    }
}

impl<'m, F: Family> Workspace<'m, F> {
    /// Makes a workspace in memory of the caller's: [`Config::workspace_size`] bytes suffice.
    pub fn init(config: &Config<F>, memory: &'m mut [u8]) -> Result<Self, Fault> {
        let (units, block) = memory::lent(memory);
        Self::made(config, units, block)
    }

    fn made(config: &Config<F>, units: Units, block: Block<'m>) -> Result<Self, Fault> {
        let mut raw = Handle(ptr::null_mut());
        // SAFETY: "The memory of a link or a workspace belongs to the library until the last call on it: nobody else reads or writes it,
        // and it stays where it is": the block is borrowed or owned as long as this value, which makes all calls.
        Fault::of_status(unsafe { (F::CALLS.workspace_init_units)(config.raw, units, &mut raw) })?;
        Ok(Workspace { raw, _block: block, family: PhantomData })
    }

    /// Returns the groups whose filter the last call in this workspace changed, in ascending order.
    pub fn changed(&self) -> Changed<'_, F> {
        Changed { workspace: &self.raw, first: 0, family: PhantomData }
    }
}

#[cfg(feature = "alloc")]
impl<F: Family> Workspace<'static, F> {
    /// Makes a workspace on the heap.
    pub fn new(config: &Config<F>) -> Result<Self, Fault> {
        let (units, block) = memory::owned(config.workspace_size());
        Self::made(config, units, block)
    }
}

/// The groups that a call changed.
pub struct Changed<'w, F: Family> {
    workspace: &'w Handle,
    first: u32,
    family: PhantomData<fn() -> F>,
}

impl<F: Family> Iterator for Changed<'_, F> {
    type Item = F::Address;

    fn next(&mut self) -> Option<F::Address> {
        let mut address = <F as Calling>::ZERO;
        // SAFETY: "A link or a workspace comes from a call that returned MQ_DONE": this one from `made`.
        // "Memory that a call writes overlaps no other argument": `address` is one address, and `&mut`.
        let count = unsafe { (F::CALLS.changed)(self.workspace, self.first, &mut address, 1) };
        (self.first < count).then(|| {
            self.first += 1;
            address
        })
    }
}
