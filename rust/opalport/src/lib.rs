//! A self-locking drive (TCG Opal SSC 2.01) in your process: safe Rust over opalport's C library.
//!
//! A drive is a value, and so are a port and a controller: it is freed when it is dropped, and a call wants `&mut`, so that no
//! two calls can meet. It is `Send`, and may be moved to another thread. Nothing here panics on what a drive answers.
//!
//! ```no_run
//! use opalport::{command_fis, Command, Config, Drive, Range};
//!
//! # fn main() -> Result<(), opalport::Error> {
//! let locked = Range { range: 1, start: 100, length: 10, read_lock_enabled: true, read_locked: true, ..Range::default() };
//! let mut drive = Drive::new(&Config { ranges: &[locked], ..Config::default() })?;
//! let answer = drive.accept(&command_fis(Command::ReadDma { lba: 95, count: 6 })?, &[])?;
//! assert_eq!((answer.status, answer.error), (0x51, 0x04));
//! assert_eq!(drive.denial(7)?, "1 7 deny read 95+6 range 1 ReadLocked");
//! # Ok(())
//! # }
//! ```
//!
//! The library is found as the crate `opalport-sys` says: by pkg-config, or in the folder that `OPALPORT_LIB` names. Its
//! version has to fit: another one is told by [`Error::VersionDiffers`] where something is made.
//!
//! # Features
//!
//! - `static`: links the archive `libopalport.a` in place of the shared library. It is not on by default.

#![warn(missing_docs)]

mod denied;
mod drive;
mod hba;
mod port;

use opalport_sys as raw;
pub use opalport_sys::Region;

pub use denied::{Attempt, Denied, Reason, Sp};
pub use drive::Drive;
pub use hba::{Hba, Went, Work, Worked};
pub use port::{EngineStep, Port, Request, Shown, Taken};

use std::fmt;
use std::ptr::null_mut;

/// How many bytes the FIS of a command has.
pub const FIS_LENGTH: usize = 20;

/// Why a call was refused: the numbers of `opalport.h`. Nothing was done then.
#[derive(Clone, Copy, Debug, PartialEq, Eq)]
#[non_exhaustive]
pub enum Error {
    /// An allocation was refused.
    OutOfMemory,
    /// The handle has nothing.
    NotOpen,
    /// What the handle has is of another kind.
    OtherKind,
    /// A pointer is null.
    Null,
    /// A FIS has not 20 bytes, or a payload not as many as its command brings.
    Length,
    /// A tag is above 31.
    Tag,
    /// A number is none of those that the call takes.
    Number,
    /// No command is held under the tag.
    NotHeld,
    /// The buffer is too short.
    Room,
    /// The handle has something already.
    InUse,
    /// There is no such range.
    NoRange,
    /// Two ranges have a sector in common.
    Overlap,
    /// A range ends beyond the drive, or the global range has a place.
    Beyond,
    /// Bytes are not what they are to be.
    Malformed,
    /// A drive has 1 to 2^48 sectors.
    Sectors,
    /// A shadow MBR has at most 262,144 sectors, with the profile opal just so many, and at most all of the drive.
    Shadow,
    /// An MSID has 1 to 32 bytes.
    Msid,
    /// There is no such profile.
    Profile,
    /// A serial number has at most 20 characters of printable ASCII, and only with the profile field or opal.
    Serial,
    /// A model number has at most 40 characters of printable ASCII, and only with the profile field or opal.
    Model,
    /// A PSID has at most 32 bytes, and only with the profile field or opal.
    Psid,
    /// A DataStore has at most 16,777,216 bytes, with the profile opal at least 10,485,760, and base has none.
    Datastore,
    /// With the profile base or field a seed is 0.
    Seed,
    /// Two rows are of one range.
    RangeTwice,
    /// The crate and the library are of versions that do not fit.
    VersionDiffers,
    /// A buffer that is written has a byte in common with another one.
    Shared,
    /// A pointer to a struct is not aligned.
    Misaligned,
    /// Another call is at work on the object.
    Busy,
    /// The slot is not free.
    PortSlotBusy,
    /// The slot has no prepared command.
    PortNotPrepared,
    /// Queued and other commands would mix.
    PortQueue,
    /// The slot has no issued command.
    PortNotIssued,
    /// The slot has no accepted command.
    PortNotAccepted,
    /// The port has not failed.
    PortNotFailed,
    /// The port has failed.
    PortFailed,
    /// The slot has no answer.
    PortNotAnswered,
    /// The answer is another client's.
    PortNotYours,
    /// A transfer has no size that the port takes.
    PortSize,
    /// The history of the port is full. No port keeps one any more, and so none is refused so.
    PortHistoryFull,
    /// A code that this crate does not know.
    Unknown(u32),
}

impl Error {
    fn check(code: u32) -> Result<(), Error> {
        Err(match code {
            0 => return Ok(()),
            1 => Error::OutOfMemory,
            2 => Error::NotOpen,
            3 => Error::OtherKind,
            4 => Error::Null,
            5 => Error::Length,
            6 => Error::Tag,
            7 => Error::Number,
            8 => Error::NotHeld,
            9 => Error::Room,
            10 => Error::InUse,
            12 => Error::NoRange,
            13 => Error::Overlap,
            14 => Error::Beyond,
            15 => Error::Malformed,
            16 => Error::Sectors,
            17 => Error::Shadow,
            18 => Error::Msid,
            19 => Error::Profile,
            20 => Error::Serial,
            21 => Error::Model,
            22 => Error::Psid,
            23 => Error::Datastore,
            24 => Error::RangeTwice,
            25 => Error::VersionDiffers,
            26 => Error::Shared,
            27 => Error::Misaligned,
            28 => Error::Busy,
            29 => Error::Seed,
            101 => Error::PortSlotBusy,
            102 => Error::PortNotPrepared,
            103 => Error::PortQueue,
            104 => Error::PortNotIssued,
            105 => Error::PortNotAccepted,
            106 => Error::PortNotFailed,
            107 => Error::PortFailed,
            108 => Error::PortNotAnswered,
            109 => Error::PortNotYours,
            110 => Error::PortSize,
            111 => Error::PortHistoryFull,
            other => Error::Unknown(other),
        })
    }
}

impl fmt::Display for Error {
    fn fmt(&self, f: &mut fmt::Formatter<'_>) -> fmt::Result {
        f.write_str(match self {
            Error::OutOfMemory => "an allocation was refused",
            Error::NotOpen => "the handle has nothing",
            Error::OtherKind => "what the handle has is of another kind",
            Error::Null => "a pointer is null",
            Error::Length => "a FIS has not 20 bytes, or a payload not as many as its command brings",
            Error::Tag => "a tag is above 31",
            Error::Number => "a number is none of those that the call takes",
            Error::NotHeld => "no command is held under the tag",
            Error::Room => "the buffer is too short",
            Error::InUse => "the handle has something already",
            Error::NoRange => "there is no such range",
            Error::Overlap => "two ranges have a sector in common",
            Error::Beyond => "a range ends beyond the drive, or the global range has a place",
            Error::Malformed => "bytes are not what they are to be",
            Error::Sectors => "a drive has 1 to 2^48 sectors",
            Error::Shadow => {
                "a shadow MBR has at most 262,144 sectors, with the profile opal just so many, and at most all of the drive"
            }
            Error::Msid => "an MSID has 1 to 32 bytes",
            Error::Profile => "there is no such profile",
            Error::Serial => {
                "a serial number has at most 20 characters of printable ASCII, and only with the profile field or opal"
            }
            Error::Model => {
                "a model number has at most 40 characters of printable ASCII, and only with the profile field or opal"
            }
            Error::Psid => "a PSID has at most 32 bytes, and only with the profile field or opal",
            Error::Datastore => {
                "a DataStore has at most 16,777,216 bytes, with the profile opal at least 10,485,760, and base has none"
            }
            Error::Seed => "with the profile base or field a seed is 0",
            Error::RangeTwice => "two rows are of one range",
            Error::VersionDiffers => "the crate and the library are of versions that do not fit",
            Error::Shared => "a buffer that is written has a byte in common with another one",
            Error::Misaligned => "a pointer to a struct is not aligned",
            Error::Busy => "another call is at work on the object",
            Error::PortSlotBusy => "the slot is not free",
            Error::PortNotPrepared => "the slot has no prepared command",
            Error::PortQueue => "queued and other commands would mix",
            Error::PortNotIssued => "the slot has no issued command",
            Error::PortNotAccepted => "the slot has no accepted command",
            Error::PortNotFailed => "the port has not failed",
            Error::PortFailed => "the port has failed",
            Error::PortNotAnswered => "the slot has no answer",
            Error::PortNotYours => "the answer is another client's",
            Error::PortSize => "a transfer has no size that the port takes",
            Error::PortHistoryFull => "the history of the port is full",
            Error::Unknown(code) => return write!(f, "the code {code}"),
        })
    }
}

impl std::error::Error for Error {}

/// A command whose FIS [`command_fis`] makes.
#[derive(Clone, Copy, Debug, PartialEq, Eq)]
pub enum Command {
    /// READ FPDMA QUEUED.
    ReadQueued {
        /// The first sector.
        lba: u64,
        /// How many sectors.
        count: u32,
        /// The tag: 0 to 31.
        tag: u8,
    },
    /// WRITE FPDMA QUEUED.
    WriteQueued {
        /// The first sector.
        lba: u64,
        /// How many sectors.
        count: u32,
        /// The tag: 0 to 31.
        tag: u8,
    },
    /// READ DMA EXT.
    ReadDma {
        /// The first sector.
        lba: u64,
        /// How many sectors.
        count: u32,
    },
    /// WRITE DMA EXT.
    WriteDma {
        /// The first sector.
        lba: u64,
        /// How many sectors.
        count: u32,
    },
    /// IDENTIFY DEVICE.
    Identify,
    /// READ LOG DMA EXT of log 10h.
    ReadQueueError,
    /// FLUSH CACHE EXT.
    Flush,
}

/// What bytes are, for [`decoded_text`].
#[derive(Clone, Copy, Debug, PartialEq, Eq)]
pub enum Kind {
    /// Level 0 discovery.
    Level0 = 0,
    /// A ComPacket.
    ComPacket = 1,
    /// A FIS.
    Fis = 2,
    /// The answer to IDENTIFY DEVICE.
    Identify = 3,
    /// Log 00h.
    LogDirectory = 4,
    /// Log 10h.
    QueueError = 5,
    /// A page of log 30h.
    DataPage = 6,
}

/// The cells of a locking range; range 0 is the global one.
#[derive(Clone, Copy, Debug, Default, PartialEq, Eq)]
pub struct Range {
    /// Its number.
    pub range: u8,
    /// Its first sector.
    pub start: u64,
    /// How many sectors it has.
    pub length: u64,
    /// ReadLockEnabled.
    pub read_lock_enabled: bool,
    /// WriteLockEnabled.
    pub write_lock_enabled: bool,
    /// ReadLocked.
    pub read_locked: bool,
    /// WriteLocked.
    pub write_locked: bool,
}

/// The drive that is asked for.
#[derive(Clone, Copy, Debug)]
pub struct Config<'a> {
    /// 1 to 2^48 sectors of 512 bytes.
    pub sectors: u64,
    /// How many of them the shadow MBR can have.
    pub shadow: u64,
    /// The PIN that SID has at first.
    pub msid: &'a [u8],
    /// With some the Locking SP is active; with none the drive is as it leaves the factory.
    pub ranges: &'a [Range],
    /// How much the drive knows.
    pub profile: Profile,
    /// What a drive of the profile `base` is not given; what is empty or none is as in a new drive of the profile.
    pub label: Label<'a>,
}

/// How much a drive knows.
#[derive(Clone, Copy, Debug, Default, PartialEq, Eq)]
pub enum Profile {
    /// What the standards ask for.
    #[default]
    Base,
    /// And what unmodified drivers ask for.
    Field,
    /// And the sizes that Opal SSC 2.01 wants.
    Opal,
}

impl Profile {
    fn number(self) -> u8 {
        match self {
            Profile::Base => 0,
            Profile::Field => 1,
            Profile::Opal => 2,
        }
    }

    fn numbered(number: u8) -> Profile {
        match number {
            0 => Profile::Base,
            1 => Profile::Field,
            _ => Profile::Opal,
        }
    }
}

/// What a drive of the profile `field` or `opal` tells of itself, its PIN, its DataStore and its seed.
#[derive(Clone, Copy, Debug, Default)]
pub struct Label<'a> {
    /// At most 20 characters of printable ASCII.
    pub serial: &'a str,
    /// At most 40.
    pub model: &'a str,
    /// The PIN on the label: at most 32 bytes.
    pub psid: &'a [u8],
    /// How many bytes DataStore has: at most 16,777,216, with `opal` at least 10,485,760.
    pub datastore: Option<u64>,
    /// The seed of the random bytes: any number; 0 unless the profile is `opal`.
    pub seed: u64,
}

impl Default for Config<'_> {
    fn default() -> Self {
        Config { sectors: 1000, shadow: 8, msid: b"OPALMSID", ranges: &[], profile: Profile::Base, label: Label::default() }
    }
}

impl Config<'_> {
    /// A drive of the profile `opal`: 524,288 sectors, of which 262,144 can be shadowed, and a DataStore of 10,485,760 bytes.
    /// What nothing has written takes no memory.
    pub fn opal() -> Self {
        Config { sectors: 524_288, shadow: 262_144, profile: Profile::Opal, ..Config::default() }
    }
}

/// What a drive answers to a command, or to a completion.
#[derive(Clone, Debug, PartialEq, Eq)]
pub struct Answer {
    /// 50h, or 51h with an error.
    pub status: u8,
    /// 04h aborted or denied, 10h beyond the drive.
    pub error: u8,
    /// Whether the command is held until it is completed.
    pub held: bool,
    /// Whether the command, or what it sent, was denied: [`Drive::denial`] tells by what.
    pub denied: bool,
    /// The data that it reads.
    pub data: Vec<u8>,
}

/// What a drive answers whose data went into a buffer.
#[derive(Clone, Copy, Debug, PartialEq, Eq)]
pub struct Told {
    /// 50h, or 51h with an error.
    pub status: u8,
    /// 04h aborted or denied, 10h beyond the drive.
    pub error: u8,
    /// Whether the command is held until it is completed.
    pub held: bool,
    /// Whether the command, or what it sent, was denied: [`Drive::denial`] tells by what.
    pub denied: bool,
    /// How many bytes of the buffer were written.
    pub length: usize,
}

/// What the drive of an object is made with.
#[derive(Clone, Copy, Debug, PartialEq, Eq)]
pub struct About {
    /// Its sectors.
    pub sectors: u64,
    /// Those of them that the shadow MBR can have.
    pub shadow: u64,
    /// How much it knows.
    pub profile: Profile,
}

/// How a queue has failed: what log page 10h tells.
#[derive(Clone, Copy, Debug, PartialEq, Eq)]
pub struct Failure {
    /// The tag of the command; none of one that was not queued.
    pub tag: Option<u8>,
    /// The error.
    pub error: u8,
    /// The device field.
    pub device: u8,
    /// The count field.
    pub count: u16,
    /// The address.
    pub lba: u64,
}

/// What a frame carries, and for whom.
#[derive(Clone, Copy, Debug, PartialEq, Eq)]
pub struct Carried<'a> {
    /// The ComID.
    pub com_id: u16,
    /// The session's number at the TPer; 0 for the session manager.
    pub tsn: u32,
    /// Its number at the host.
    pub hsn: u32,
    /// What it carries.
    pub payload: &'a [u8],
}

/// What a call writes to a buffer: it is called once more where it tells that there is more of it.
fn written(room: usize, mut call: impl FnMut(*mut u8, usize) -> raw::Count) -> Result<Vec<u8>, Error> {
    let mut bytes = vec![0; room];
    loop {
        let told = call(bytes.as_mut_ptr(), bytes.len());
        match Error::check(told.code) {
            Ok(()) => {
                bytes.truncate(told.number);
                return Ok(bytes);
            }
            Err(Error::Room) => bytes.resize(told.number, 0),
            Err(error) => return Err(error),
        }
    }
}

fn text(bytes: Vec<u8>) -> String {
    String::from_utf8_lossy(&bytes).into_owned()
}

/// The version of the library, as `0.2.0`, or `0.2.0 unproved` of one that was built without proofs.
pub fn library_version() -> Result<String, Error> {
    // SAFETY: the buffer is there for the call, with its length.
    written(64, |into, room| unsafe { raw::opal_raw_version_text(into, room) }).map(text)
}

/// The item that a token stream spells, with names or with numbers, or `malformed N NAME`.
pub fn tokens_text(by_name: bool, bytes: &[u8]) -> Result<String, Error> {
    // SAFETY: the pointers and lengths are those of slices, which are borrowed for the call.
    written(512, |into, room| unsafe { raw::opal_raw_tokens(by_name, bytes.as_ptr(), bytes.len(), into, room) }).map(text)
}

/// The fields of bytes, a line for each.
pub fn decoded_text(kind: Kind, bytes: &[u8]) -> Result<String, Error> {
    // SAFETY: as in `tokens_text`.
    written(4096, |into, room| unsafe { raw::opal_raw_decoded(kind as u32, bytes.as_ptr(), bytes.len(), into, room) })
        .map(text)
}

/// The tokens of the call that a line writes by name, as a script has it: `set 1 Locking_Range1 ReadLocked=0`.
pub fn call_named(line: &str) -> Result<Vec<u8>, Error> {
    // SAFETY: as in `tokens_text`.
    written(256, |into, room| unsafe { raw::opal_raw_call_named(line.as_ptr(), line.len(), into, room) })
}

/// A ComPacket of one packet of a session with one data subpacket.
pub fn frame(com_id: u16, tsn: u32, hsn: u32, payload: &[u8]) -> Result<Vec<u8>, Error> {
    // SAFETY: as in `tokens_text`.
    written(payload.len() + 64, |into, room| unsafe {
        raw::opal_raw_frame(com_id, tsn, hsn, payload.as_ptr(), payload.len(), into, room)
    })
}

/// What the frame carries that the bytes begin with.
pub fn opened(bytes: &[u8]) -> Result<Carried<'_>, Error> {
    // SAFETY: as in `tokens_text`.
    let told = unsafe { raw::opal_raw_opened(bytes.as_ptr(), bytes.len()) };
    Error::check(told.code)?;
    let payload = bytes.get(told.at..).and_then(|behind| behind.get(..told.length)).ok_or(Error::Malformed)?;
    Ok(Carried { com_id: told.com_id, tsn: told.tsn, hsn: told.hsn, payload })
}

/// A FIS that a call writes.
fn fis(call: impl FnOnce(*mut u8, usize) -> raw::Count) -> Result<[u8; FIS_LENGTH], Error> {
    let mut bytes = [0; FIS_LENGTH];
    Error::check(call(bytes.as_mut_ptr(), FIS_LENGTH).code)?;
    Ok(bytes)
}

/// The FIS of a command.
pub fn command_fis(command: Command) -> Result<[u8; FIS_LENGTH], Error> {
    let (number, lba, count, tag) = match command {
        Command::ReadQueued { lba, count, tag } => (0, lba, count, tag),
        Command::WriteQueued { lba, count, tag } => (1, lba, count, tag),
        Command::ReadDma { lba, count } => (2, lba, count, 0),
        Command::WriteDma { lba, count } => (3, lba, count, 0),
        Command::Identify => (4, 0, 0, 0),
        Command::ReadQueueError => (5, 0, 0, 0),
        Command::Flush => (6, 0, 0, 0),
    };
    // SAFETY: the buffer is there for the call, with its length.
    fis(|into, room| unsafe { raw::opal_raw_command_fis(number, lba, count, tag, into, room) })
}

/// The FIS of TRUSTED SEND DMA, of so many blocks of 512 bytes.
pub fn send_fis(protocol: u8, sp_specific: u16, blocks: u16) -> Result<[u8; FIS_LENGTH], Error> {
    // SAFETY: as in `command_fis`.
    fis(|into, room| unsafe { raw::opal_raw_trusted_fis(true, protocol, sp_specific, blocks, into, room) })
}

/// The FIS of TRUSTED RECEIVE DMA, of so many blocks of 512 bytes.
pub fn receive_fis(protocol: u8, sp_specific: u16, blocks: u16) -> Result<[u8; FIS_LENGTH], Error> {
    // SAFETY: as in `command_fis`.
    fis(|into, room| unsafe { raw::opal_raw_trusted_fis(false, protocol, sp_specific, blocks, into, room) })
}

/// What a handle has. It is freed when it is dropped.
struct Object {
    handle: raw::Handle,
}

// SAFETY: what a handle leads to is used by one call at a time, since each wants `&mut`, and it is plain data.
unsafe impl Send for Object {}

/// How the library makes a drive or a port: both are asked for by the same parts.
type Make = unsafe extern "C" fn(
    *mut raw::Handle,
    raw::Size,
    *const u8,
    usize,
    *const u8,
    usize,
    *const u8,
    usize,
    *const u8,
    usize,
    *const raw::RangeCells,
    usize,
) -> u32;

/// Whether the library has the version of these crates.
fn library_fits() -> Result<(), Error> {
    // SAFETY: it takes nothing.
    if unsafe { raw::opal_raw_version() } >> 8 != raw::VERSION >> 8 {
        return Err(Error::VersionDiffers);
    }
    Ok(())
}

impl Object {
    fn new(make: Make, config: &Config<'_>) -> Result<Object, Error> {
        Object::with_addresses(make, config, false)
    }

    /// One whose addresses have 64 bits, or not.
    fn with_addresses(make: Make, config: &Config<'_>, wide: bool) -> Result<Object, Error> {
        library_fits()?;
        let label = config.label;
        let size = raw::Size {
            sectors: config.sectors,
            shadow: config.shadow,
            datastore: label.datastore.map_or(u64::MAX, |bytes| bytes.min(u64::MAX - 1)),
            seed: label.seed,
            profile: config.profile.number().into(),
            wide,
        };
        let cells: Vec<raw::RangeCells> = config.ranges.iter().map(cells_of).collect();
        let mut object = Object::none();
        // SAFETY: the handle begins as one with nothing; the rest are slices, borrowed for the call.
        let code = unsafe {
            make(
                &mut object.handle,
                size,
                config.msid.as_ptr(),
                config.msid.len(),
                label.serial.as_ptr(),
                label.serial.len(),
                label.model.as_ptr(),
                label.model.len(),
                label.psid.as_ptr(),
                label.psid.len(),
                cells.as_ptr(),
                cells.len(),
            )
        };
        Error::check(code)?;
        Ok(object)
    }

    /// What a call makes of the bytes of a drive.
    fn load(
        call: impl FnOnce(*mut raw::Handle, *const u8, usize) -> u32,
        saved: &[u8],
    ) -> Result<Object, Error> {
        library_fits()?;
        let mut object = Object::none();
        Error::check(call(&mut object.handle, saved.as_ptr(), saved.len()))?;
        Ok(object)
    }

    /// An object with nothing behind it.
    fn none() -> Object {
        Object { handle: raw::Handle { mark: 0, place: null_mut() } }
    }

    fn try_clone(&mut self) -> Result<Object, Error> {
        let mut object = Object::none();
        // SAFETY: the one handle begins as one with nothing, the other is this object's own.
        Error::check(unsafe { raw::opal_raw_clone(&mut object.handle, &mut self.handle) })?;
        Ok(object)
    }

    fn about(&mut self) -> Result<About, Error> {
        // SAFETY: the handle is this object's own.
        let told = unsafe { raw::opal_raw_about(&mut self.handle) };
        Error::check(told.code)?;
        Ok(About { sectors: told.sectors, shadow: told.shadow, profile: Profile::numbered(told.profile) })
    }

    fn remedy(&mut self, place: usize) -> Result<String, Error> {
        // SAFETY: the handle is this object's own, and the buffer is there for the call.
        written(400, |into, room| unsafe { raw::opal_raw_remedy(&mut self.handle, place, into, room) }).map(text)
    }

    fn save(&mut self) -> Result<Vec<u8>, Error> {
        // SAFETY: the handle is this object's own, and the buffer is there for the call.
        written(1 << 16, |into, room| unsafe { raw::opal_raw_save(&mut self.handle, into, room) })
    }

    fn media(&mut self, lba: u64) -> Result<Vec<u8>, Error> {
        // SAFETY: the handle is this object's own, and the buffer is there for the call.
        written(512, |into, room| unsafe { raw::opal_raw_media(&mut self.handle, lba, into, room) })
    }
}

impl Drop for Object {
    fn drop(&mut self) {
        // SAFETY: the handle is this object's own, and is used no more. One with nothing is left as it is.
        unsafe { raw::opal_raw_free(&mut self.handle) };
    }
}

fn cells_of(row: &Range) -> raw::RangeCells {
    raw::RangeCells {
        start: row.start,
        length: row.length,
        range: row.range,
        read_lock_enabled: row.read_lock_enabled.into(),
        write_lock_enabled: row.write_lock_enabled.into(),
        read_locked: row.read_locked.into(),
        write_locked: row.write_locked.into(),
    }
}
