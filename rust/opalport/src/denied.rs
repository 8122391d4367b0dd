//! Denials in numbers.

use crate::Error;
use opalport_sys as raw;

/// A security provider.
#[derive(Clone, Copy, Debug, PartialEq, Eq)]
pub enum Sp {
    /// The Admin SP.
    Admin,
    /// The Locking SP.
    Locking,
}

/// How an attempt to authenticate failed.
#[derive(Clone, Copy, Debug, PartialEq, Eq)]
pub enum Attempt {
    /// The PIN is another one.
    WrongPin,
    /// The authority's tries are used up.
    LockedOut,
    /// The authority is not enabled.
    Disabled,
    /// SID is blocked.
    Blocked,
    /// The authority is unknown, or a class of others.
    Unknown,
}

/// What denied an act.
#[derive(Clone, Copy, Debug, PartialEq, Eq)]
#[non_exhaustive]
pub enum Reason {
    /// A read over a range whose read lock is enabled and set.
    ReadLocked {
        /// The range; 0 is the global one.
        range: u8,
        /// The first sector of the read.
        lba: u64,
        /// How many sectors.
        count: u32,
    },
    /// A write over a range whose write lock is enabled and set.
    WriteLocked {
        /// The range; 0 is the global one.
        range: u8,
        /// The first sector of the write.
        lba: u64,
        /// How many sectors.
        count: u32,
    },
    /// A read of sectors of which the shadow MBR covers some.
    ReadShadow {
        /// The first sector of the read.
        lba: u64,
        /// How many sectors.
        count: u32,
    },
    /// A write to sectors that the shadow MBR covers.
    WriteShadow {
        /// The first sector of the write.
        lba: u64,
        /// How many sectors.
        count: u32,
    },
    /// A method for which no access control element holds.
    NoAce {
        /// The security provider.
        sp: Sp,
        /// The UID of the object.
        object: u64,
        /// The UID of the method.
        method: u64,
        /// The first column that is denied, where the call names columns.
        column: Option<u64>,
    },
    /// A method that the access list does not offer on the object.
    NoAccess {
        /// The security provider.
        sp: Sp,
        /// The UID of the object.
        object: u64,
        /// The UID of the method.
        method: u64,
    },
    /// An attempt to authenticate that failed.
    Attempt {
        /// The security provider.
        sp: Sp,
        /// The UID of the authority.
        authority: u64,
        /// How it failed.
        failure: Attempt,
    },
}

/// A denial: the number of the act, or of a port's step, the client, and what denied it.
#[derive(Clone, Copy, Debug, PartialEq, Eq)]
pub struct Denied {
    /// The number of the act; of a port, of the step.
    pub step: u64,
    /// Of a drive what the caller said, of a port the client, of a controller the tag.
    pub client: u32,
    /// What denied it.
    pub reason: Reason,
}

/// What a call told.
pub(crate) fn told(told: raw::Denied) -> Result<Option<Denied>, Error> {
    Error::check(told.code)?;
    let raw::Denied { lba, count, range, object, method, .. } = told;
    let sp = if told.sp == 1 { Sp::Admin } else { Sp::Locking };
    let attempt = |failure| Reason::Attempt { sp, authority: object, failure };
    let reason = match told.reason {
        1 => Reason::ReadLocked { range, lba, count },
        2 => Reason::WriteLocked { range, lba, count },
        3 => Reason::ReadShadow { lba, count },
        4 => Reason::WriteShadow { lba, count },
        5 => Reason::NoAce { sp, object, method, column: told.has_column.then_some(told.column) },
        6 => Reason::NoAccess { sp, object, method },
        7 => attempt(Attempt::WrongPin),
        8 => attempt(Attempt::LockedOut),
        9 => attempt(Attempt::Disabled),
        10 => attempt(Attempt::Blocked),
        11 => attempt(Attempt::Unknown),
        _ => return Ok(None),
    };
    Ok(Some(Denied { step: told.step, client: told.client, reason }))
}
