//! Why a call did nothing.

use core::fmt;

/// Why a call did nothing: a fault of the configuration, a memory that is too small, a time out of range, or what a link holds.
#[derive(Clone, Copy, Debug, PartialEq, Eq, Hash)]
#[non_exhaustive]
pub enum Fault {
    /// `robustness` is out of range.
    Robustness,
    /// `query_interval` is out of range.
    QueryInterval,
    /// `response_interval` is out of range, or not below the query interval.
    ResponseInterval,
    /// `last_member_interval` is out of range.
    LastMemberInterval,
    /// `groups` is out of range.
    Groups,
    /// `group_sources` is out of range.
    GroupSources,
    /// `sources` is out of range.
    Sources,
    /// `scheduled` is out of range.
    Scheduled,
    /// No router may send queries from the own address.
    OwnAddress,
    /// The memory is too small, or the heap has none left.
    Memory,
    /// The time is later than [`LATEST`](crate::LATEST).
    Moment,
    /// The workspace was made for smaller limits than the link has.
    Workspace,
    /// The link holds more than the configuration allows.
    Held,
    /// `last_member_query_count` is out of range.
    LastMemberQueryCount,
    /// A status that this crate does not know.
    Unknown,
}

impl Fault {
    const ALL: [Fault; 14] = [
        Fault::Robustness,
        Fault::QueryInterval,
        Fault::ResponseInterval,
        Fault::LastMemberInterval,
        Fault::Groups,
        Fault::GroupSources,
        Fault::Sources,
        Fault::Scheduled,
        Fault::OwnAddress,
        Fault::Memory,
        Fault::Moment,
        Fault::Workspace,
        Fault::Held,
        Fault::LastMemberQueryCount,
    ];

    /// Returns what a status of the header says.
    pub(crate) fn of_status(status: u32) -> Result<(), Fault> {
        match status {
            crate::raw::DONE => Ok(()),
            _ => Err(Fault::ALL.get(status as usize - 1).copied().unwrap_or(Fault::Unknown)),
        }
    }
}

impl fmt::Display for Fault {
    fn fmt(&self, to: &mut fmt::Formatter<'_>) -> fmt::Result {
        to.write_str(match self {
            Fault::Robustness => "the robustness variable is not within 1 to 7",
            Fault::QueryInterval => "the query interval is not within 1 to 31744 seconds",
            Fault::ResponseInterval => "the response interval is out of range or not below the query interval",
            Fault::LastMemberInterval => "the last member query interval is out of range",
            Fault::Groups => "the limit of groups is not within 1 to 65535",
            Fault::GroupSources => "the limit of sources of a group is not within 1 to 1024",
            Fault::Sources => "the limit of sources is not within 1 to 65535",
            Fault::Scheduled => "the limit of schedules is not within 1 to 65535",
            Fault::OwnAddress => "no router may send queries from the own address",
            Fault::Memory => "the memory is too small",
            Fault::Moment => "the time is later than 2^53 milliseconds",
            Fault::Workspace => "the workspace is too small for the link",
            Fault::Held => "the link holds more than the configuration allows",
            Fault::LastMemberQueryCount => "the last member query count is not within 0 to 7",
            Fault::Unknown => "not a status",
        })
    }
}

#[cfg(feature = "std")]
impl std::error::Error for Fault {}
