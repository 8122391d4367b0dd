//! An AHCI controller with one port, and the drive behind it.

use crate::{denied, raw, text, written, About, Config, Denied, Error, Object, Region};

/// The work of a controller's turn.
#[derive(Clone, Copy, Debug, PartialEq, Eq)]
#[non_exhaustive]
pub enum Work {
    /// Nothing was ready.
    None,
    /// The device told its signature.
    Signature,
    /// The command of a tag was fetched, and given to the drive.
    Fetch(u8),
    /// The command of a tag that the drive held was completed.
    Complete(u8),
}

/// How the work of a turn went.
#[derive(Clone, Copy, Debug, PartialEq, Eq)]
#[non_exhaustive]
pub enum Went {
    /// The signature was posted.
    Posted,
    /// The drive took the command, or completed it; it may have failed or denied it.
    Served,
    /// The FIS was no command.
    Control,
    /// A command header was not in the memory.
    NoList,
    /// A command table or a descriptor was not.
    NoTable,
    /// A block of data was not.
    NoData,
    /// The place of a received FIS was not.
    NoFis,
}

/// What a controller did in a turn.
#[derive(Clone, Copy, Debug, PartialEq, Eq)]
pub struct Worked {
    /// The work.
    pub work: Work,
    /// How it went.
    pub went: Went,
    /// Whether the command that was fetched, or what it sent, was denied: [`Hba::denial`] tells by what.
    pub denied: bool,
}

/// An AHCI controller with one port, and the drive behind it: registers, and memory of yours.
pub struct Hba {
    object: Object,
}

impl Hba {
    /// A controller over the drive that is asked for, as it is after its reset. Its addresses are below 4 GiB.
    pub fn new(config: &Config<'_>) -> Result<Hba, Error> {
        Object::new(raw::opal_raw_hba_new, config).map(|object| Hba { object })
    }

    /// The same, but CAP.S64A is 1: its addresses have 64 bits, and memory of the host may stand past 4 GiB.
    pub fn wide(config: &Config<'_>) -> Result<Hba, Error> {
        Object::with_addresses(raw::opal_raw_hba_new, config, true).map(|object| Hba { object })
    }

    /// A controller over the drive that was saved as these bytes, as [`Drive::load`](crate::Drive::load). Its registers are as after
    /// its reset, and it counts the acts of its drive from then on.
    pub fn load(saved: &[u8]) -> Result<Hba, Error> {
        Hba::loaded(saved, false)
    }

    /// The same, but CAP.S64A is 1: its addresses have 64 bits.
    pub fn load_wide(saved: &[u8]) -> Result<Hba, Error> {
        Hba::loaded(saved, true)
    }

    fn loaded(saved: &[u8], wide: bool) -> Result<Hba, Error> {
        // SAFETY: the handle is one with nothing; the bytes are borrowed for the call.
        Object::load(|handle, bytes, length| unsafe { raw::opal_raw_hba_load(handle, bytes, length, wide) }, saved)
            .map(|object| Hba { object })
    }

    /// Its drive as bytes, as [`Drive::save`](crate::Drive::save).
    pub fn save(&mut self) -> Result<Vec<u8>, Error> {
        self.object.save()
    }

    /// The same once more, in memory of its own, as [`Drive::try_clone`](crate::Drive::try_clone).
    pub fn try_clone(&mut self) -> Result<Hba, Error> {
        self.object.try_clone().map(|object| Hba { object })
    }

    /// The 32 bits at an offset of the registers: the generic ones from 0h, the port's from 100h; 0 where no register is.
    pub fn read(&mut self, offset: u32) -> Result<u32, Error> {
        // SAFETY: the handle is this controller's own.
        let told = unsafe { raw::opal_raw_hba_read(&mut self.object.handle, offset) };
        Error::check(told.code).map(|()| told.number as u32)
    }

    /// Writes 32 bits of the registers; nothing where no register is. No memory moves.
    pub fn write(&mut self, offset: u32, value: u32) -> Result<(), Error> {
        // SAFETY: the handle is this controller's own.
        Error::check(unsafe { raw::opal_raw_hba_write(&mut self.object.handle, offset, value) })
    }

    /// The interrupt line.
    pub fn interrupt(&mut self) -> Result<bool, Error> {
        // SAFETY: the handle is this controller's own.
        let told = unsafe { raw::opal_raw_hba_interrupt(&mut self.object.handle) };
        Error::check(told.code).map(|()| told.number != 0)
    }

    /// The controller and its drive lose power, and have it again.
    pub fn power_cycle(&mut self) -> Result<(), Error> {
        // SAFETY: the handle is this controller's own.
        Error::check(unsafe { raw::opal_raw_hba_power_cycle(&mut self.object.handle) })
    }

    /// The controller does a work of those that are ready, the one of the number `choice`, modulo how many they are. The host's
    /// memory is `memory`, from the address `base` on; there is no other. It is read and written in this call alone.
    pub fn turn(&mut self, choice: usize, base: u64, memory: &mut [u8]) -> Result<Worked, Error> {
        // SAFETY: the handle is this controller's own, and the memory is there for the call.
        let told =
            unsafe { raw::opal_raw_hba_turn(&mut self.object.handle, choice, base, memory.as_mut_ptr(), memory.len()) };
        worked(told)
    }

    /// The same, where of those bytes the ones that lie in the regions alone are memory: an access is answered where all its
    /// bytes lie in one region, and any other finds no memory.
    pub fn turn_within(
        &mut self,
        choice: usize,
        base: u64,
        memory: &mut [u8],
        regions: &[Region],
    ) -> Result<Worked, Error> {
        // SAFETY: the handle is this controller's own, and memory and regions are there for the call.
        let told = unsafe {
            raw::opal_raw_hba_turn_within(
                &mut self.object.handle,
                choice,
                base,
                memory.as_mut_ptr(),
                memory.len(),
                regions.as_ptr(),
                regions.len(),
            )
        };
        worked(told)
    }

    /// The line of the audit log that tells what denied the command of the last turn, as
    /// `1 0 deny read 100+1 range 1 ReadLocked`; empty where nothing did.
    pub fn denial(&mut self) -> Result<String, Error> {
        // SAFETY: the handle is this controller's own, and the buffer is there for the call.
        written(200, |into, room| unsafe { raw::opal_raw_hba_denial(&mut self.object.handle, into, room) }).map(text)
    }

    /// What would lift what denied the command of the last turn, as [`crate::Drive::remedy`].
    pub fn remedy(&mut self) -> Result<String, Error> {
        self.object.remedy(0)
    }

    /// What denied the command of the last turn, in numbers.
    pub fn denied(&mut self) -> Result<Option<Denied>, Error> {
        // SAFETY: the handle is this controller's own.
        denied::told(unsafe { raw::opal_raw_hba_denied(&mut self.object.handle) })
    }

    /// What the drive is made with.
    pub fn about(&mut self) -> Result<About, Error> {
        self.object.about()
    }

    /// The 512 bytes of a sector as the media hold them, whatever is locked or shadowed: a look for a test, and no act.
    pub fn media(&mut self, lba: u64) -> Result<Vec<u8>, Error> {
        self.object.media(lba)
    }
}

/// What a turn is told as.
fn worked(told: raw::Worked) -> Result<Worked, Error> {
    Error::check(told.code)?;
    let work = match told.work {
        0 => Work::None,
        1 => Work::Signature,
        2 => Work::Fetch(told.tag),
        _ => Work::Complete(told.tag),
    };
    let went = match told.went {
        0 => Went::Posted,
        1 => Went::Served,
        2 => Went::Control,
        3 => Went::NoList,
        4 => Went::NoTable,
        5 => Went::NoData,
        _ => Went::NoFis,
    };
    Ok(Worked { work, went, denied: told.denied })
}
