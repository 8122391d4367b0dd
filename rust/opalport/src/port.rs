//! One AHCI port with 32 command slots, the drive behind it, and the clients that share it.

use crate::{denied, text, written, About, Config, Denied, Error, Object};
use opalport_sys as raw;

/// What a client asks of a port. Addresses and counts are of blocks of 512 bytes.
#[derive(Clone, Copy, Debug, PartialEq, Eq)]
pub enum Request<'a> {
    /// READ FPDMA QUEUED: in the queue, as the next one.
    Read {
        /// The first sector.
        lba: u64,
        /// How many sectors.
        count: u32,
    },
    /// WRITE FPDMA QUEUED.
    Write {
        /// The first sector.
        lba: u64,
        /// What is written, or sent.
        bytes: &'a [u8],
    },
    /// READ DMA EXT: out of the queue, as all below.
    ReadDma {
        /// The first sector.
        lba: u64,
        /// How many sectors.
        count: u32,
    },
    /// WRITE DMA EXT.
    WriteDma {
        /// The first sector.
        lba: u64,
        /// What is written, or sent.
        bytes: &'a [u8],
    },
    /// IDENTIFY DEVICE.
    Identify,
    /// FLUSH CACHE EXT.
    Flush,
    /// TRUSTED SEND DMA.
    Send {
        /// The security protocol.
        protocol: u8,
        /// The SP Specific: a ComID.
        com_id: u16,
        /// What is written, or sent.
        bytes: &'a [u8],
    },
    /// TRUSTED RECEIVE DMA.
    Receive {
        /// The security protocol.
        protocol: u8,
        /// The SP Specific: a ComID.
        com_id: u16,
        /// How many blocks of 512 bytes.
        blocks: u32,
    },
}

/// What a client takes.
#[derive(Clone, Debug, PartialEq, Eq)]
pub enum Taken {
    /// Done, with its data.
    Done(Vec<u8>),
    /// The drive failed or denied it.
    Failed {
        /// 51h.
        status: u8,
        /// 04h aborted or denied, 10h beyond the drive.
        error: u8,
    },
    /// A reset stopped it.
    Reset,
}

/// A step that the engine may do.
#[derive(Clone, Copy, Debug, PartialEq, Eq)]
pub enum EngineStep {
    /// The port issues a prepared command.
    Issue {
        /// The tag: 0 to 31.
        tag: u8,
    },
    /// The drive takes an issued one.
    Accept {
        /// The tag: 0 to 31.
        tag: u8,
    },
    /// The drive ends one that it holds.
    Complete {
        /// The tag: 0 to 31.
        tag: u8,
    },
    /// The port recovers from a command that failed.
    Recover,
}

/// What a port shows.
#[derive(Clone, Copy, Debug, PartialEq, Eq)]
pub struct Shown {
    /// PxIS.
    pub interrupts: u32,
    /// PxTFD: status, and error from bit 8 on.
    pub task: u32,
    /// PxSACT.
    pub active: u32,
    /// PxCI.
    pub issued: u32,
    /// How many denials there were: so many lines the audit log has.
    pub denials: usize,
}

/// A port. Each step that is done gives its number, from 1.
pub struct Port {
    object: Object,
}

impl Port {
    /// A port over the drive that is asked for, on which nothing was done.
    pub fn new(config: &Config<'_>) -> Result<Port, Error> {
        Object::new(raw::opal_raw_port_new, config).map(|object| Port { object })
    }

    /// Its drive as bytes, as [`Drive::save`](crate::Drive::save).
    pub fn save(&mut self) -> Result<Vec<u8>, Error> {
        self.object.save()
    }

    /// The same once more, in memory of its own, as [`Drive::try_clone`](crate::Drive::try_clone).
    pub fn try_clone(&mut self) -> Result<Port, Error> {
        self.object.try_clone().map(|object| Port { object })
    }

    /// A client puts a request in the slot of a tag.
    pub fn put(&mut self, client: u32, tag: u8, request: &Request<'_>) -> Result<usize, Error> {
        let (asked, bytes) = asked(request);
        // SAFETY: the handle is this port's own; the payload is a slice, borrowed for the call.
        step(unsafe { raw::opal_raw_port_put(&mut self.object.handle, client, tag, asked, bytes.as_ptr(), bytes.len()) })
    }

    /// The port issues a prepared command.
    pub fn issue(&mut self, tag: u8) -> Result<usize, Error> {
        // SAFETY: the handle is this port's own, here and below.
        step(unsafe { raw::opal_raw_port_issue(&mut self.object.handle, tag) })
    }

    /// The drive takes an issued command.
    pub fn accept(&mut self, tag: u8) -> Result<usize, Error> {
        // SAFETY: as in `issue`.
        step(unsafe { raw::opal_raw_port_accept(&mut self.object.handle, tag) })
    }

    /// The drive moves the data of a command that it holds, and ends it.
    pub fn complete(&mut self, tag: u8) -> Result<usize, Error> {
        // SAFETY: as in `issue`.
        step(unsafe { raw::opal_raw_port_complete(&mut self.object.handle, tag) })
    }

    /// The port recovers from a command that failed.
    pub fn recover(&mut self) -> Result<usize, Error> {
        // SAFETY: as in `issue`.
        step(unsafe { raw::opal_raw_port_recover(&mut self.object.handle) })
    }

    /// A client resets the port and the drive, by a power cycle.
    pub fn power_cycle(&mut self, client: u32) -> Result<usize, Error> {
        // SAFETY: as in `issue`.
        step(unsafe { raw::opal_raw_port_reset(&mut self.object.handle, client, 0) })
    }

    /// A client resets the port and the drive, by a hardware reset.
    pub fn hardware_reset(&mut self, client: u32) -> Result<usize, Error> {
        // SAFETY: as in `issue`.
        step(unsafe { raw::opal_raw_port_reset(&mut self.object.handle, client, 1) })
    }

    /// A client takes its answer, and the slot is free. It tells the number of the step, too.
    pub fn take(&mut self, client: u32, tag: u8) -> Result<(usize, Taken), Error> {
        // SAFETY: as in `issue`.
        let told = unsafe { raw::opal_raw_port_take(&mut self.object.handle, client, tag) };
        Error::check(told.code)?;
        let taken = match told.ending {
            0 => Taken::Done(self.data(told.length)?),
            1 => Taken::Failed { status: told.status, error: told.error },
            _ => Taken::Reset,
        };
        Ok((told.number, taken))
    }

    /// The data of what was taken last.
    fn data(&mut self, length: usize) -> Result<Vec<u8>, Error> {
        // SAFETY: as in `issue`, and the buffer is there for the call.
        written(length, |into, room| unsafe { raw::opal_raw_port_data(&mut self.object.handle, into, room) })
    }

    /// The engine does the step at `choice`, modulo their number, of those that are ready. None where there is none.
    pub fn turn(&mut self, choice: usize) -> Result<Option<usize>, Error> {
        // SAFETY: as in `issue`.
        let number = step(unsafe { raw::opal_raw_port_turn(&mut self.object.handle, choice) })?;
        Ok((number > 0).then_some(number))
    }

    /// The steps that the engine may do, by their kind, then by their tag.
    pub fn ready(&mut self) -> Result<Vec<EngineStep>, Error> {
        let mut steps = [raw::Ready { step: 0, tag: 0 }; 32];
        // SAFETY: as in `issue`, and the buffer is there for the call.
        let told = unsafe { raw::opal_raw_port_ready(&mut self.object.handle, steps.as_mut_ptr(), steps.len()) };
        Error::check(told.code)?;
        Ok(steps.iter().take(told.number).map(engine_step).collect())
    }

    /// What the drive is made with.
    pub fn about(&mut self) -> Result<About, Error> {
        self.object.about()
    }

    /// The 512 bytes of a sector as the media hold them, whatever is locked or shadowed: a look for a test, and no act.
    pub fn media(&mut self, lba: u64) -> Result<Vec<u8>, Error> {
        self.object.media(lba)
    }

    /// What the port shows.
    pub fn shown(&mut self) -> Result<Shown, Error> {
        // SAFETY: as in `issue`.
        let told = unsafe { raw::opal_raw_port_shown(&mut self.object.handle) };
        Error::check(told.code)?;
        let raw::Shown { interrupts, task, active, issued, denials, .. } = told;
        Ok(Shown { interrupts, task, active, issued, denials })
    }

    /// The line of the audit log at a place, 0 the oldest, as `6 1 deny read 100+1 range 1 ReadLocked`; empty where it is none of
    /// the 64 latest.
    pub fn denial(&mut self, place: usize) -> Result<String, Error> {
        // SAFETY: as in `issue`, and the buffer is there for the call.
        written(200, |into, room| unsafe { raw::opal_raw_port_denial(&mut self.object.handle, place, into, room) }).map(text)
    }

    /// What would lift the denial at a place, by the rows in force now, as [`crate::Drive::remedy`].
    pub fn remedy(&mut self, place: usize) -> Result<String, Error> {
        self.object.remedy(place)
    }

    /// The denial at a place, 0 the oldest, in numbers; none where it is none of the 64 latest.
    pub fn denied(&mut self, place: usize) -> Result<Option<Denied>, Error> {
        // SAFETY: as in `issue`.
        denied::told(unsafe { raw::opal_raw_port_denied(&mut self.object.handle, place) })
    }

    /// The denials from a place on, the oldest first, as many as the port keeps; and the place to ask from the next time.
    pub fn denials_since(&mut self, place: usize) -> Result<(Vec<Denied>, usize), Error> {
        let now = self.shown()?.denials;
        let mut list = Vec::new();
        for it in place.max(now.saturating_sub(64))..now {
            list.extend(self.denied(it)?);
        }
        Ok((list, now))
    }
}

fn step(told: raw::Count) -> Result<usize, Error> {
    Error::check(told.code).map(|()| told.number)
}

/// A request as its numbers and its payload.
fn asked<'a>(request: &Request<'a>) -> (raw::Asked, &'a [u8]) {
    let none: &[u8] = &[];
    let (command, lba, count, com_id, protocol, bytes) = match *request {
        Request::Read { lba, count } => (0, lba, count, 0, 0, none),
        Request::Write { lba, bytes } => (1, lba, 0, 0, 0, bytes),
        Request::ReadDma { lba, count } => (2, lba, count, 0, 0, none),
        Request::WriteDma { lba, bytes } => (3, lba, 0, 0, 0, bytes),
        Request::Identify => (4, 0, 0, 0, 0, none),
        Request::Flush => (6, 0, 0, 0, 0, none),
        Request::Send { protocol, com_id, bytes } => (7, 0, 0, com_id, protocol, bytes),
        Request::Receive { protocol, com_id, blocks } => (8, 0, blocks, com_id, protocol, none),
    };
    (raw::Asked { lba, command, count, com_id, protocol }, bytes)
}

fn engine_step(step: &raw::Ready) -> EngineStep {
    let tag = step.tag;
    match step.step {
        0 => EngineStep::Issue { tag },
        1 => EngineStep::Accept { tag },
        2 => EngineStep::Complete { tag },
        _ => EngineStep::Recover,
    }
}
