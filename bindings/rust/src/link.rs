//! Links.

use crate::memory::{self, Block};
use crate::raw::{Handle, Units, COUNTERS, NONE};
use crate::{Answer, Config, Counts, Envelope, Family, Fault, Group, IntoAddress, Source, Workspace, LATEST};
use core::fmt;
use core::marker::PhantomData;
use core::ptr;

/// A querier on one interface of one family, in memory that is lent for `'m` or owned.
pub struct Link<'m, F: Family> {
    raw: Handle,
    _block: Block<'m>,
    family: PhantomData<fn() -> F>,
}

// SAFETY: "One thread at a time uses a link or a workspace": whoever has it, since it is not `Sync`.
unsafe impl<F: Family> Send for Link<'_, F> {}

impl<F: Family> fmt::Debug for Link<'_, F> {
    fn fmt(&self, to: &mut fmt::Formatter<'_>) -> fmt::Result {
        to.debug_struct("Link").finish_non_exhaustive()
    }
}

impl<'m, F: Family> Link<'m, F> {
    /// Makes a link in memory of the caller's: [`Config::size`] bytes suffice. It begins as querier at `start`: its first query is due
    /// then, and a tick sends it.
    pub fn init(config: &Config<F>, start: u64, memory: &'m mut [u8]) -> Result<Self, Fault> {
        let (units, block) = memory::lent(memory);
        Self::made(config, start, units, block)
    }

    fn made(config: &Config<F>, start: u64, units: Units, block: Block<'m>) -> Result<Self, Fault> {
        let mut raw = Handle(ptr::null_mut());
        // SAFETY: "The memory of a link or a workspace belongs to the library until the last call on it: nobody else reads or writes it,
        // and it stays where it is": the block is borrowed or owned as long as this value, which makes all calls.
        Fault::of_status(unsafe { (F::CALLS.init_units)(config.raw, start, units, &mut raw) })?;
        Ok(Link { raw, _block: block, family: PhantomData })
    }

    /// Gives the link another configuration: groups, timers and schedules stay, and later calls use the new values. Afterwards
    /// [`next_deadline`](Self::next_deadline) may be earlier. Fails with [`Fault::Memory`] if a limit exceeds that with which the link
    /// was made, and with [`Fault::Held`] if it holds more. Then nothing changes.
    pub fn configure(&mut self, config: &Config<F>) -> Result<(), Fault> {
        // SAFETY: "A link or a workspace comes from a call that returned MQ_DONE": this one from `made`.
        Fault::of_status(unsafe { (F::CALLS.configure)(&mut self.raw, config.raw) })
    }

    /// Takes a datagram that came at `now`: what its IP packet says, and the bytes after its IP header, options and extension headers. First
    /// it does what a tick does.
    pub fn receive<'q>(
        &mut self,
        workspace: &mut Workspace<'_, F>,
        envelope: impl Into<Envelope<F::Address>>,
        body: &[u8],
        now: u64,
        queries: &'q mut [u8],
    ) -> Result<Answer<'q, F>, Fault> {
        let raw = F::receive(&mut self.raw, &mut workspace.raw, &envelope.into(), body, now, queries);
        Answer::of(raw, queries)
    }

    /// Does what is due at `now` or before, and writes the queries to be sent into `queries`. A query that does not fit is lost.
    pub fn tick<'q>(
        &mut self,
        workspace: &mut Workspace<'_, F>,
        now: u64,
        queries: &'q mut [u8],
    ) -> Result<Answer<'q, F>, Fault> {
        let (link, work, to, room) = (&mut self.raw, &mut workspace.raw, queries.as_mut_ptr(), queries.len());
        // SAFETY: "Memory that a call writes overlaps no other argument": these are three `&mut`.
        // "A link or a workspace comes from a call that returned MQ_DONE": both from `made`.
        let raw = unsafe { (F::CALLS.tick)(link, work, now, to, room) };
        Answer::of(raw, queries)
    }

    /// Returns when the next tick is due, after a tick later than that tick; None if never again.
    pub fn next_deadline(&self) -> Option<u64> {
        // SAFETY: "A link or a workspace comes from a call that returned MQ_DONE": this one from `made`, as for all calls below.
        let deadline = unsafe { (F::CALLS.next_deadline)(&self.raw) };
        (deadline <= LATEST).then_some(deadline)
    }

    /// Returns whether traffic from a source to a group is forwarded, as of the last call.
    pub fn forwards(&self, group: impl IntoAddress<F>, source: impl IntoAddress<F>) -> bool {
        let (group, source) = (group.into_address(), source.into_address());
        // SAFETY: "A pointer points to as many elements as its prototype or its length says": each is one address.
        unsafe { (F::CALLS.forwards)(&self.raw, &group, &source) }
    }

    /// Returns a group, and writes its sources in ascending order to the front of `sources` if all of them fit.
    pub fn group_into(&self, address: impl IntoAddress<F>, sources: &mut [Source<F>]) -> Option<Group<F>> {
        let (address, mut group) = (address.into_address(), Group::default());
        // SAFETY: "A pointer points to as many elements as its prototype or its length says": an address, a group, and a slice.
        // "Memory that a call writes overlaps no other argument": `group` and `sources` are `&mut`.
        let page = unsafe {
            (F::CALLS.group_at)(&self.raw, &address, &mut group.0, sources.as_mut_ptr().cast(), sources.len())
        };
        (page.groups > 0).then_some(group)
    }

    /// Writes groups in ascending order from the `first`th on, as many as fit with all their sources, which follow one another in
    /// `sources`. Returns how many groups and sources it wrote.
    pub fn groups_into(&self, first: usize, groups: &mut [Group<F>], sources: &mut [Source<F>]) -> (usize, usize) {
        let first = u32::try_from(first).unwrap_or(u32::MAX);
        // SAFETY: "A pointer points to as many elements as its prototype or its length says": these are slices.
        // "Memory that a call writes overlaps no other argument": they are `&mut`.
        let page = unsafe {
            let (to, sources_to) = (groups.as_mut_ptr().cast(), sources.as_mut_ptr().cast());
            (F::CALLS.groups)(&self.raw, first, to, groups.len(), sources_to, sources.len())
        };
        (page.groups as usize, page.sources as usize)
    }

    /// Returns how many groups the link has.
    pub fn len(&self) -> usize {
        // SAFETY: "A link or a workspace comes from a call that returned MQ_DONE".
        unsafe { (F::CALLS.len)(&self.raw) as usize }
    }

    /// Returns whether the link has no group.
    pub fn is_empty(&self) -> bool {
        self.len() == 0
    }

    /// Returns whether this router is querier.
    pub fn is_querier(&self) -> bool {
        // SAFETY: "A link or a workspace comes from a call that returned MQ_DONE".
        unsafe { (F::CALLS.is_querier)(&self.raw) }
    }

    /// Returns the address of the querier with a lower address, and until when it is assumed; None while this router is querier.
    pub fn other_querier(&self) -> Option<(F::Address, u64)> {
        let mut address = F::ZERO;
        // SAFETY: "A pointer points to as many elements as its prototype or its length says": `room` is the size of an address.
        let until = unsafe { (F::CALLS.other_querier)(&self.raw, &mut address, core::mem::size_of::<F::Address>()) };
        (until != NONE).then_some((address, until))
    }

    /// Returns what the link has counted.
    pub fn counts(&self) -> Counts {
        let mut counts = Counts::default();
        // SAFETY: "A pointer points to as many elements as its prototype or its length says": `Counts` is `COUNTERS` numbers.
        unsafe { (F::CALLS.counters)(&self.raw, (&mut counts as *mut Counts).cast(), COUNTERS) };
        counts
    }
}

#[cfg(feature = "alloc")]
impl<F: Family> Link<'static, F> {
    /// Makes a link on the heap.
    pub fn new(config: &Config<F>, start: u64) -> Result<Self, Fault> {
        let (units, block) = memory::owned(config.size());
        Self::made(config, start, units, block)
    }
}

#[cfg(feature = "alloc")]
impl<F: Family> Link<'_, F> {
    /// Returns a group with its sources in ascending order.
    pub fn group(&self, address: impl IntoAddress<F>) -> Option<(Group<F>, alloc::vec::Vec<Source<F>>)> {
        let address = address.into_address();
        let mut sources = alloc::vec![Source::default(); self.group_into(address, &mut [])?.sources()];
        Some((self.group_into(address, &mut sources)?, sources))
    }

    /// Returns all groups in ascending order, each with its sources in ascending order.
    pub fn groups(&self) -> alloc::vec::Vec<(Group<F>, alloc::vec::Vec<Source<F>>)> {
        let (mut found, mut groups) = (alloc::vec::Vec::new(), [Group::default(); 32]);
        let mut sources = alloc::vec![Source::default(); 32 * 1024];
        while found.len() < self.len() {
            let (count, _) = self.groups_into(found.len(), &mut groups, &mut sources);
            let mut at = 0;
            for group in &groups[..count] {
                found.push((*group, sources[at..at + group.sources()].to_vec()));
                at += group.sources();
            }
        }
        found
    }
}
