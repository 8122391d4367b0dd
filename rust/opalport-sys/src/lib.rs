//! The functions of opalport's C library, as `opalport.h` declares those of the archive. Each stands for the call of the same
//! name without `raw_`, whose page, `opalport(3)`, says what it does and when it is refused.
//!
//! These look for no null pointer: a pointer leads to as many bytes as the length behind it says, also to none. The crate
//! `opalport` has safe calls over them.
//!
//! The library is that in the folder which `OPALPORT_LIB` names, or the one that pkg-config finds. With the feature `static`,
//! `libopalport.a` is linked, else `libopalport.so`; in the folder of `OPALPORT_LIB` the archive is taken where it is there.

#![no_std]
#![warn(missing_docs)]

/// An object, as the functions below take it: `opal_raw_object`. All zeros is none. It may be moved, and not copied; the numbers
/// that `opalport.h` has in place of objects, so that copies are told, are made over these.
#[repr(C)]
#[derive(Debug)]
pub struct Handle {
    /// The library's: whether there is an object.
    pub mark: u64,
    /// The library's: where it is.
    pub place: *mut u8,
}

/// The numbers of a drive that is asked for: `opal_raw_size`.
#[repr(C)]
#[derive(Clone, Copy, Debug)]
pub struct Size {
    /// 1 to 2^48, of 512 bytes.
    pub sectors: u64,
    /// How many of them the shadow MBR can have.
    pub shadow: u64,
    /// How many bytes DataStore has; `u64::MAX` stands for the size that a drive has where none is asked for.
    pub datastore: u64,
    /// The seed of the random bytes; 0 unless the profile is opal.
    pub seed: u64,
    /// 0 is base, 1 is field, 2 is opal.
    pub profile: u32,
    /// Whether a controller's addresses have 64 bits (CAP.S64A).
    pub wide: bool,
}

/// A region of a host's memory: `opal_region`.
#[repr(C)]
#[derive(Clone, Copy, Debug, PartialEq, Eq)]
pub struct Region {
    /// The address of its first byte.
    pub begin: u64,
    /// How many bytes it has.
    pub length: u64,
}

/// The cells of a locking range: `opal_range`. Of the last four, 0 is false.
#[repr(C)]
#[derive(Clone, Copy, Debug)]
pub struct RangeCells {
    /// Its first sector.
    pub start: u64,
    /// How many sectors it has.
    pub length: u64,
    /// Its number; 0 is the global one.
    pub range: u8,
    /// ReadLockEnabled.
    pub read_lock_enabled: u8,
    /// WriteLockEnabled.
    pub write_lock_enabled: u8,
    /// ReadLocked.
    pub read_locked: u8,
    /// WriteLocked.
    pub write_locked: u8,
}

/// What a drive answers: `opal_answer`.
#[repr(C)]
#[derive(Clone, Copy, Debug)]
pub struct Answer {
    /// 0, or why the call was refused.
    pub code: u32,
    /// 50h, or 51h with an error.
    pub status: u8,
    /// 04h aborted or denied, 10h beyond the drive.
    pub error: u8,
    /// Whether the command is held until it is completed.
    pub held: bool,
    /// Whether the command, or what it sent, was denied.
    pub denied: bool,
    /// How many bytes of data there are.
    pub length: usize,
}

/// A number: `opal_count`.
#[repr(C)]
#[derive(Clone, Copy, Debug)]
pub struct Count {
    /// 0, or why the call was refused.
    pub code: u32,
    /// The number, where the code is 0; with the code of want of room, how many bytes there are.
    pub number: usize,
}

/// How a queue has failed: `opal_failed`.
#[repr(C)]
#[derive(Clone, Copy, Debug)]
pub struct Failed {
    /// 0, or why the call was refused.
    pub code: u32,
    /// Whether it has.
    pub failed: bool,
    /// Whether the command was a queued one.
    pub queued: bool,
    /// Its tag, then.
    pub tag: u8,
    /// The error.
    pub error: u8,
    /// The device field.
    pub device: u8,
    /// The count field.
    pub count: u16,
    /// The address.
    pub lba: u64,
}

/// What a client asks of a port: `opal_request`.
#[repr(C)]
#[derive(Clone, Copy, Debug)]
pub struct Asked {
    /// The first sector.
    pub lba: u64,
    /// The number of the command.
    pub command: u32,
    /// How many blocks a read or a receive moves.
    pub count: u32,
    /// Of a send or a receive: its SP Specific.
    pub com_id: u16,
    /// Of a send or a receive: its security protocol.
    pub protocol: u8,
}

/// What a client took: `opal_taken`.
#[repr(C)]
#[derive(Clone, Copy, Debug)]
pub struct Taken {
    /// 0, or why the call was refused.
    pub code: u32,
    /// 0 done, 1 failed, 2 stopped by a reset.
    pub ending: u8,
    /// 51h of a command that failed.
    pub status: u8,
    /// 04h or 10h of a command that failed.
    pub error: u8,
    /// The number of the step.
    pub number: usize,
    /// How many bytes of data there are.
    pub length: usize,
}

/// A step that the engine of a port may do: `opal_ready`.
#[repr(C)]
#[derive(Clone, Copy, Debug)]
pub struct Ready {
    /// 0 Issue, 1 Accept, 2 Complete, 3 Recover.
    pub step: u8,
    /// Its tag; 0 of Recover.
    pub tag: u8,
}

/// What a port shows: `opal_shown`.
#[repr(C)]
#[derive(Clone, Copy, Debug)]
pub struct Shown {
    /// 0, or why the call was refused.
    pub code: u32,
    /// PxIS.
    pub interrupts: u32,
    /// PxTFD.
    pub task: u32,
    /// PxSACT.
    pub active: u32,
    /// PxCI.
    pub issued: u32,
    /// How many lines the audit log has.
    pub denials: usize,
}

/// The work of a controller's turn, and how it went: `opal_worked`.
#[repr(C)]
#[derive(Clone, Copy, Debug)]
pub struct Worked {
    /// 0, or why the call was refused.
    pub code: u32,
    /// 0 nothing, 1 the signature, 2 a fetch, 3 a completion.
    pub work: u8,
    /// The tag of the command; 0 of the signature.
    pub tag: u8,
    /// How it went.
    pub went: u8,
    /// Whether the command that was fetched, or what it sent, was denied.
    pub denied: bool,
}

/// A denial in numbers: `opal_denied`.
#[repr(C)]
#[derive(Clone, Copy, Debug)]
pub struct Denied {
    /// 0, or why the call was refused.
    pub code: u32,
    /// The client; at a controller the tag.
    pub client: u32,
    /// What denied the act; 0 where there is no denial.
    pub reason: u8,
    /// 1 the Admin SP, 2 the Locking SP.
    pub sp: u8,
    /// The range that denied.
    pub range: u8,
    /// Whether a method names columns.
    pub has_column: bool,
    /// How many sectors.
    pub count: u32,
    /// The number of the act, or of the step.
    pub step: u64,
    /// The first sector.
    pub lba: u64,
    /// The UID of the object, or of the authority.
    pub object: u64,
    /// The UID of the method.
    pub method: u64,
    /// The first column that is denied.
    pub column: u64,
}

/// What a frame carries, and for whom: `opal_carried`.
#[repr(C)]
#[derive(Clone, Copy, Debug)]
pub struct Carried {
    /// 0, or why the call was refused.
    pub code: u32,
    /// The session's number at the TPer.
    pub tsn: u32,
    /// Its number at the host.
    pub hsn: u32,
    /// The ComID.
    pub com_id: u16,
    /// Where the payload begins.
    pub at: usize,
    /// How many bytes it has.
    pub length: usize,
}

/// What a handle has: `opal_about`.
#[repr(C)]
#[derive(Clone, Copy, Debug)]
pub struct About {
    /// 0, or why the call was refused.
    pub code: u32,
    /// 1 is a drive, 2 a port, 3 a controller.
    pub kind: u8,
    /// 0 is base, 1 is field.
    pub profile: u8,
    /// The sectors of the drive.
    pub sectors: u64,
    /// Those of them that the shadow MBR can have.
    pub shadow: u64,
}

/// The version of the header that these declarations are of, a byte each of major, minor and patch. A library of the same
/// major and minor fits.
pub const VERSION: u32 = 0x0000_0200;

extern "C" {
    /// `opal_version` of the header.
    pub fn opal_raw_version() -> u32;
    /// `opal_version_text` of the header.
    pub fn opal_raw_version_text(into: *mut u8, length: usize) -> Count;
    /// `opal_about_handle` of the header.
    pub fn opal_raw_about(handle: *mut Handle) -> About;
    /// `opal_media` of the header.
    pub fn opal_raw_media(handle: *mut Handle, lba: u64, into: *mut u8, length: usize) -> Count;
    /// `opal_remedy` of the header.
    pub fn opal_raw_remedy(handle: *mut Handle, place: usize, into: *mut u8, length: usize) -> Count;
    /// `opal_drive_new` of the header.
    pub fn opal_raw_drive_new(
        handle: *mut Handle,
        size: Size,
        msid: *const u8,
        msid_length: usize,
        serial: *const u8,
        serial_length: usize,
        model: *const u8,
        model_length: usize,
        psid: *const u8,
        psid_length: usize,
        ranges: *const RangeCells,
        range_count: usize,
    ) -> u32;
    /// `opal_clone` of the header.
    pub fn opal_raw_clone(handle: *mut Handle, from: *mut Handle) -> u32;
    /// `opal_save` of the header.
    pub fn opal_raw_save(handle: *mut Handle, into: *mut u8, length: usize) -> Count;
    /// `opal_drive_load` of the header.
    pub fn opal_raw_drive_load(handle: *mut Handle, saved: *const u8, length: usize) -> u32;
    /// `opal_hba_load` of the header.
    pub fn opal_raw_hba_load(handle: *mut Handle, saved: *const u8, length: usize, wide: bool) -> u32;
    /// `opal_free` of the header.
    pub fn opal_raw_free(handle: *mut Handle) -> u32;
    /// `opal_drive_accept` of the header.
    pub fn opal_raw_drive_accept(
        handle: *mut Handle,
        fis: *const u8,
        fis_length: usize,
        payload: *const u8,
        payload_length: usize,
    ) -> Answer;
    /// `opal_drive_complete` of the header.
    pub fn opal_raw_drive_complete(handle: *mut Handle, tag: u8, payload: *const u8, payload_length: usize) -> Answer;
    /// `opal_drive_accept_into` of the header.
    pub fn opal_raw_drive_accept_into(
        handle: *mut Handle,
        fis: *const u8,
        fis_length: usize,
        payload: *const u8,
        payload_length: usize,
        into: *mut u8,
        length: usize,
    ) -> Answer;
    /// `opal_drive_complete_into` of the header.
    pub fn opal_raw_drive_complete_into(
        handle: *mut Handle,
        tag: u8,
        payload: *const u8,
        payload_length: usize,
        into: *mut u8,
        length: usize,
    ) -> Answer;
    /// `opal_drive_reset` of the header.
    pub fn opal_raw_drive_reset(handle: *mut Handle, kind: u32) -> u32;
    /// `opal_drive_payload` of the header.
    pub fn opal_raw_drive_payload(handle: *mut Handle, fis: *const u8, fis_length: usize) -> Count;
    /// `opal_drive_expects` of the header.
    pub fn opal_raw_drive_expects(handle: *mut Handle, tag: u8) -> Count;
    /// `opal_drive_failure` of the header.
    pub fn opal_raw_drive_failure(handle: *mut Handle) -> Failed;
    /// `opal_drive_data` of the header.
    pub fn opal_raw_drive_data(handle: *mut Handle, into: *mut u8, length: usize) -> Count;
    /// `opal_drive_denial` of the header.
    pub fn opal_raw_drive_denial(handle: *mut Handle, client: u32, into: *mut u8, length: usize) -> Count;
    /// `opal_drive_denied` of the header.
    pub fn opal_raw_drive_denied(handle: *mut Handle, client: u32) -> Denied;
    /// `opal_port_new` of the header.
    pub fn opal_raw_port_new(
        handle: *mut Handle,
        size: Size,
        msid: *const u8,
        msid_length: usize,
        serial: *const u8,
        serial_length: usize,
        model: *const u8,
        model_length: usize,
        psid: *const u8,
        psid_length: usize,
        ranges: *const RangeCells,
        range_count: usize,
    ) -> u32;
    /// `opal_port_put` of the header.
    pub fn opal_raw_port_put(
        handle: *mut Handle,
        client: u32,
        tag: u8,
        request: Asked,
        payload: *const u8,
        payload_length: usize,
    ) -> Count;
    /// `opal_port_issue` of the header.
    pub fn opal_raw_port_issue(handle: *mut Handle, tag: u8) -> Count;
    /// `opal_port_accept` of the header.
    pub fn opal_raw_port_accept(handle: *mut Handle, tag: u8) -> Count;
    /// `opal_port_complete` of the header.
    pub fn opal_raw_port_complete(handle: *mut Handle, tag: u8) -> Count;
    /// `opal_port_recover` of the header.
    pub fn opal_raw_port_recover(handle: *mut Handle) -> Count;
    /// `opal_port_reset` of the header.
    pub fn opal_raw_port_reset(handle: *mut Handle, client: u32, kind: u32) -> Count;
    /// `opal_port_take` of the header.
    pub fn opal_raw_port_take(handle: *mut Handle, client: u32, tag: u8) -> Taken;
    /// `opal_port_turn` of the header.
    pub fn opal_raw_port_turn(handle: *mut Handle, choice: usize) -> Count;
    /// `opal_port_ready` of the header.
    pub fn opal_raw_port_ready(handle: *mut Handle, into: *mut Ready, length: usize) -> Count;
    /// `opal_port_data` of the header.
    pub fn opal_raw_port_data(handle: *mut Handle, into: *mut u8, length: usize) -> Count;
    /// `opal_port_shown` of the header.
    pub fn opal_raw_port_shown(handle: *mut Handle) -> Shown;
    /// `opal_port_denial` of the header.
    pub fn opal_raw_port_denial(handle: *mut Handle, place: usize, into: *mut u8, length: usize) -> Count;
    /// `opal_port_denied` of the header.
    pub fn opal_raw_port_denied(handle: *mut Handle, place: usize) -> Denied;
    /// `opal_hba_new` of the header.
    pub fn opal_raw_hba_new(
        handle: *mut Handle,
        size: Size,
        msid: *const u8,
        msid_length: usize,
        serial: *const u8,
        serial_length: usize,
        model: *const u8,
        model_length: usize,
        psid: *const u8,
        psid_length: usize,
        ranges: *const RangeCells,
        range_count: usize,
    ) -> u32;
    /// `opal_hba_read` of the header.
    pub fn opal_raw_hba_read(handle: *mut Handle, offset: u32) -> Count;
    /// `opal_hba_write` of the header.
    pub fn opal_raw_hba_write(handle: *mut Handle, offset: u32, value: u32) -> u32;
    /// `opal_hba_interrupt` of the header.
    pub fn opal_raw_hba_interrupt(handle: *mut Handle) -> Count;
    /// `opal_hba_power_cycle` of the header.
    pub fn opal_raw_hba_power_cycle(handle: *mut Handle) -> u32;
    /// `opal_hba_turn` of the header.
    pub fn opal_raw_hba_turn(handle: *mut Handle, choice: usize, base: u64, memory: *mut u8, length: usize) -> Worked;
    /// `opal_hba_turn_within` of the header.
    pub fn opal_raw_hba_turn_within(
        handle: *mut Handle,
        choice: usize,
        base: u64,
        memory: *mut u8,
        length: usize,
        regions: *const Region,
        region_count: usize,
    ) -> Worked;
    /// `opal_hba_denial` of the header.
    pub fn opal_raw_hba_denial(handle: *mut Handle, into: *mut u8, length: usize) -> Count;
    /// `opal_hba_denied` of the header.
    pub fn opal_raw_hba_denied(handle: *mut Handle) -> Denied;
    /// `opal_tokens_text` of the header.
    pub fn opal_raw_tokens(by_name: bool, bytes: *const u8, bytes_length: usize, into: *mut u8, length: usize) -> Count;
    /// `opal_decoded_text` of the header.
    pub fn opal_raw_decoded(kind: u32, bytes: *const u8, bytes_length: usize, into: *mut u8, length: usize) -> Count;
    /// `opal_call_named` of the header.
    pub fn opal_raw_call_named(line: *const u8, line_length: usize, into: *mut u8, length: usize) -> Count;
    /// `opal_frame` of the header.
    pub fn opal_raw_frame(
        com_id: u16,
        tsn: u32,
        hsn: u32,
        payload: *const u8,
        payload_length: usize,
        into: *mut u8,
        length: usize,
    ) -> Count;
    /// `opal_opened` of the header.
    pub fn opal_raw_opened(bytes: *const u8, length: usize) -> Carried;
    /// `opal_command_fis` of the header.
    pub fn opal_raw_command_fis(command: u32, lba: u64, count: u32, tag: u8, into: *mut u8, length: usize) -> Count;
    /// `opal_trusted_fis` of the header.
    pub fn opal_raw_trusted_fis(
        is_send: bool,
        protocol: u8,
        sp_specific: u16,
        blocks: u16,
        into: *mut u8,
        length: usize,
    ) -> Count;
}
