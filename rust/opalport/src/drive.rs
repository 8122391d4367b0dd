//! A self-locking drive.

use crate::{denied, raw, text, written, About, Answer, Config, Denied, Error, Failure, Object, Told, FIS_LENGTH};

/// What an answer tells, whose data stand in a buffer of so many bytes.
fn told_within(told: raw::Answer, room: usize) -> Result<Told, Error> {
    Error::check(told.code)?;
    let raw::Answer { status, error, held, denied, length, .. } = told;
    if length > room {
        return Err(Error::Room);
    }
    Ok(Told { status, error, held, denied, length })
}

/// A self-locking drive.
pub struct Drive {
    object: Object,
}

impl Drive {
    /// The drive that is asked for.
    pub fn new(config: &Config<'_>) -> Result<Drive, Error> {
        Object::new(raw::opal_raw_drive_new, config).map(|object| Drive { object })
    }

    /// The same drive once more, in memory of its own: both answer the same from now on, and what is done with one changes nothing
    /// of the other. The copy goes on with the numbers of acts.
    pub fn try_clone(&mut self) -> Result<Drive, Error> {
        self.object.try_clone().map(|object| Drive { object })
    }

    /// The drive as bytes, as a power cycle leaves it: what [`Drive::load`] and [`Hba::load`](crate::Hba::load) take. The drive goes on as it was. PINs and sectors
    /// stand in them as they are.
    pub fn save(&mut self) -> Result<Vec<u8>, Error> {
        self.object.save()
    }

    /// The drive that was saved as these bytes. It answers as the saved drive does behind a power cycle. [`Error::Malformed`] of
    /// bytes that are no saved drive.
    pub fn load(saved: &[u8]) -> Result<Drive, Error> {
        // SAFETY: the handle is one with nothing; the bytes are borrowed for the call.
        Object::load(|handle, bytes, length| unsafe { raw::opal_raw_drive_load(handle, bytes, length) }, saved)
            .map(|object| Drive { object })
    }

    fn answer(&mut self, told: raw::Answer) -> Result<Answer, Error> {
        Error::check(told.code)?;
        let data = if told.length == 0 {
            Vec::new()
        } else {
            // SAFETY: the handle is this drive's own, and the buffer is there for the call.
            written(told.length, |into, room| unsafe { raw::opal_raw_drive_data(&mut self.object.handle, into, room) })?
        };
        Ok(Answer { status: told.status, error: told.error, held: told.held, denied: told.denied, data })
    }

    /// Gives the drive the FIS of a command, with the payload that it brings.
    pub fn accept(&mut self, fis: &[u8; FIS_LENGTH], payload: &[u8]) -> Result<Answer, Error> {
        // SAFETY: the handle is this drive's own; the rest are slices, borrowed for the call.
        let told = unsafe {
            raw::opal_raw_drive_accept(&mut self.object.handle, fis.as_ptr(), FIS_LENGTH, payload.as_ptr(), payload.len())
        };
        self.answer(told)
    }

    /// [`Drive::accept`], with the data put into a buffer. Where they have no room there, the command is done, and the error is
    /// [`Error::Room`].
    pub fn accept_into(&mut self, fis: &[u8; FIS_LENGTH], payload: &[u8], into: &mut [u8]) -> Result<Told, Error> {
        let (handle, bytes, length, room) = (&mut self.object.handle, payload.as_ptr(), payload.len(), into.len());
        // SAFETY: as in `accept`; nothing else borrows the buffer.
        let told = unsafe {
            raw::opal_raw_drive_accept_into(handle, fis.as_ptr(), FIS_LENGTH, bytes, length, into.as_mut_ptr(), room)
        };
        told_within(told, room)
    }

    /// [`Drive::complete`], with the data put into a buffer, as [`Drive::accept_into`] does.
    pub fn complete_into(&mut self, tag: u8, payload: &[u8], into: &mut [u8]) -> Result<Told, Error> {
        let (handle, bytes, length, room) = (&mut self.object.handle, payload.as_ptr(), payload.len(), into.len());
        // SAFETY: as in `accept_into`.
        let told =
            unsafe { raw::opal_raw_drive_complete_into(handle, tag, bytes, length, into.as_mut_ptr(), room) };
        told_within(told, room)
    }

    /// What the drive is made with.
    pub fn about(&mut self) -> Result<About, Error> {
        self.object.about()
    }

    /// The 512 bytes of a sector as the media hold them, whatever is locked or shadowed: a look for a test, and no act.
    pub fn media(&mut self, lba: u64) -> Result<Vec<u8>, Error> {
        self.object.media(lba)
    }

    /// Moves the data of the command that is held under a tag, and lets it go.
    pub fn complete(&mut self, tag: u8, payload: &[u8]) -> Result<Answer, Error> {
        // SAFETY: as in `accept`.
        let told =
            unsafe { raw::opal_raw_drive_complete(&mut self.object.handle, tag, payload.as_ptr(), payload.len()) };
        self.answer(told)
    }

    /// How many bytes of payload a command brings.
    pub fn payload_length(&mut self, fis: &[u8; FIS_LENGTH]) -> Result<usize, Error> {
        // SAFETY: as in `accept`.
        let told = unsafe { raw::opal_raw_drive_payload(&mut self.object.handle, fis.as_ptr(), FIS_LENGTH) };
        Error::check(told.code).map(|()| told.number)
    }

    /// How many bytes of payload a completion under a tag brings.
    pub fn expects(&mut self, tag: u8) -> Result<usize, Error> {
        // SAFETY: the handle is this drive's own.
        let told = unsafe { raw::opal_raw_drive_expects(&mut self.object.handle, tag) };
        Error::check(told.code).map(|()| told.number)
    }

    /// A power cycle.
    pub fn power_cycle(&mut self) -> Result<(), Error> {
        // SAFETY: the handle is this drive's own.
        Error::check(unsafe { raw::opal_raw_drive_reset(&mut self.object.handle, 0) })
    }

    /// A hardware reset.
    pub fn hardware_reset(&mut self) -> Result<(), Error> {
        // SAFETY: the handle is this drive's own.
        Error::check(unsafe { raw::opal_raw_drive_reset(&mut self.object.handle, 1) })
    }

    /// How the queue has failed, if it has.
    pub fn failure(&mut self) -> Result<Option<Failure>, Error> {
        // SAFETY: the handle is this drive's own.
        let told = unsafe { raw::opal_raw_drive_failure(&mut self.object.handle) };
        Error::check(told.code)?;
        Ok(told.failed.then_some(Failure {
            tag: told.queued.then_some(told.tag),
            error: told.error,
            device: told.device,
            count: told.count,
            lba: told.lba,
        }))
    }

    /// The line of the audit log that tells what denied the last command, as
    /// `3 7 deny read 95+6 range 1 ReadLocked`; empty where nothing did.
    pub fn denial(&mut self, client: u32) -> Result<String, Error> {
        // SAFETY: the handle is this drive's own, and the buffer is there for the call.
        written(200, |into, room| unsafe { raw::opal_raw_drive_denial(&mut self.object.handle, client, into, room) }).map(text)
    }

    /// What would lift what denied the last command, by the rows in force, as
    /// `lifted by: Set of Locking_Range1 ReadLocked = 0 by Admins (ACE_Locking_Range1_Set_RdLocked)`; empty where nothing did.
    pub fn remedy(&mut self) -> Result<String, Error> {
        self.object.remedy(0)
    }

    /// What denied the last command, in numbers; the client is yours to say.
    pub fn denied(&mut self, client: u32) -> Result<Option<Denied>, Error> {
        // SAFETY: the handle is this drive's own.
        denied::told(unsafe { raw::opal_raw_drive_denied(&mut self.object.handle, client) })
    }
}
