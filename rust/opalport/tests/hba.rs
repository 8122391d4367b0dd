//! A controller whose drive has range 1 locked for reads, by the wrapper. The values are worked from AHCI 1.3.1 and ACS-3.

use opalport::{command_fis, Command, Config, Error, Hba, Range, Region, Went, Work, Worked};

const BASE: u32 = 0x10_0000;
const AT: u64 = BASE as u64;
const PX_CLB: u32 = 0x100;
const PX_CLBU: u32 = 0x104;
const PX_FB: u32 = 0x108;
const PX_FBU: u32 = 0x10c;
const PX_CMD: u32 = 0x118;
const PX_TFD: u32 = 0x120;
const PX_SERR: u32 = 0x130;
const PX_CI: u32 = 0x138;

fn hba() -> Hba {
    let locked = Range { range: 1, start: 100, length: 10, read_lock_enabled: true, read_locked: true, ..Range::default() };
    Hba::new(&Config { ranges: &[locked], ..Config::default() }).unwrap()
}

fn start(hba: &mut Hba, memory: &mut [u8]) {
    for (offset, value) in [(PX_CLB, BASE), (PX_FB, BASE + 0x1000), (PX_SERR, u32::MAX), (PX_CMD, 0x11)] {
        hba.write(offset, value).unwrap();
    }
    let worked = hba.turn(0, AT, memory).unwrap();
    assert_eq!(worked, Worked { work: Work::Signature, went: Went::Posted, denied: false });
}

/// READ DMA EXT of a sector in slot 0: a header with a FIS of five words and one descriptor, of 512 bytes at 103000h.
fn issue(hba: &mut Hba, memory: &mut [u8], lba: u64) {
    for (at, word) in [(0, 5 | 1 << 16), (8, BASE + 0x2000), (12, 0), (0x2080, BASE + 0x3000), (0x2084, 0), (0x208c, 511)] {
        memory[at..at + 4].copy_from_slice(&u32::to_le_bytes(word));
    }
    memory[0x2000..0x2014].copy_from_slice(&command_fis(Command::ReadDma { lba, count: 1 }).unwrap());
    hba.write(PX_CI, 1).unwrap();
}

fn read(hba: &mut Hba, memory: &mut [u8], lba: u64) -> Worked {
    issue(hba, memory, lba);
    hba.turn(0, AT, memory).unwrap()
}

#[test]
fn a_locked_read_is_denied_and_another_one_served() {
    let (mut hba, mut memory) = (hba(), vec![0xff; 0x4000]);
    start(&mut hba, &mut memory);
    assert_eq!(read(&mut hba, &mut memory, 100), Worked { work: Work::Fetch(0), went: Went::Served, denied: true });
    assert_eq!((hba.read(PX_TFD), memory[0x3000]), (Ok(0x0451), 0xff));
    assert_eq!(hba.denial().unwrap(), "1 0 deny read 100+1 range 1 ReadLocked");
    hba.power_cycle().unwrap();
    assert_eq!((hba.read(PX_CLB), hba.read(PX_CI), hba.interrupt()), (Ok(0), Ok(0), Ok(false)));
    start(&mut hba, &mut memory);
    assert!(!read(&mut hba, &mut memory, 0).denied);
    assert_eq!(memory[0x3000..0x3200], [0; 512]);
    assert_eq!(hba.turn(0, AT, &mut memory).unwrap().work, Work::None);
}

#[test]
fn a_controller_tells_what_is_not_in_the_memory() {
    let (mut hba, mut memory) = (hba(), vec![0; 0x4000]);
    start(&mut hba, &mut memory);
    hba.write(PX_CI, 1).unwrap();
    assert_eq!(hba.turn(0, AT, &mut []).unwrap().went, Went::NoList);
}

#[test]
fn what_lies_in_no_region_is_no_memory() {
    let (mut hba, mut memory) = (hba(), vec![0xff; 0x4000]);
    let front = Region { begin: AT, length: 0x3000 };
    for (begin, length, went) in [(0x3000, 512, Went::Served), (0x3000, 511, Went::NoData), (0x3001, 512, Went::NoData)] {
        hba.power_cycle().unwrap();
        start(&mut hba, &mut memory);
        issue(&mut hba, &mut memory, 0);
        memory[0x3000..0x3200].fill(0xff);
        let regions = [front, Region { begin: AT + begin, length }];
        assert_eq!(hba.turn_within(0, AT, &mut memory, &regions).unwrap().went, went);
        assert_eq!(memory[0x3000] == 0, went == Went::Served);
    }
    hba.power_cycle().unwrap();
    start(&mut hba, &mut memory);
    issue(&mut hba, &mut memory, 0);
    assert_eq!(hba.turn_within(0, AT, &mut memory, &[]).unwrap().went, Went::NoList);
}

#[test]
fn a_controller_may_move_to_another_thread() {
    let mut hba = hba();
    assert_eq!(std::thread::spawn(move || hba.about().map(|it| it.sectors)).join().unwrap(), Ok(1000));
    assert_eq!(Hba::new(&Config { sectors: 0, ..Config::default() }).err(), Some(Error::Sectors));
}

#[test]
fn a_controller_over_a_drive_that_was_saved() {
    let mut memory = vec![0; 0x4000];
    let mut before = hba();
    start(&mut before, &mut memory);
    read(&mut before, &mut memory, 100);
    let saved = before.save().unwrap();
    let mut loaded = Hba::load(&saved).unwrap();
    assert_eq!(loaded.save().unwrap(), saved);
    start(&mut loaded, &mut memory);
    assert!(read(&mut loaded, &mut memory, 100).denied);
    assert_eq!(loaded.denial().unwrap(), "1 0 deny read 100+1 range 1 ReadLocked");
    assert_eq!(Hba::load(&saved[1..]).err(), Some(Error::Malformed));
}

/// AHCI 1.3.1, 3.1.1, 3.3.2, 3.3.4, 4.2.2 and 4.2.3.3: the list, received FISes, the table and the block past 12 GiB.
#[test]
fn memory_past_4_gib_is_reached_with_64_bit_addresses() {
    let above = 3 << 32 | AT;
    let wide = Hba::wide(&Config::default()).unwrap();
    let narrow = Hba::new(&Config::default()).unwrap();
    for (mut hba, cap, upper, went) in [(wide, 0xc124_9f00, 3, Went::Served), (narrow, 0x4124_9f00, 0, Went::NoList)] {
        let mut memory = vec![0xff; 0x4000];
        for offset in [PX_CLBU, PX_FBU] {
            hba.write(offset, 3).unwrap();
            assert_eq!(hba.read(offset), Ok(upper));
        }
        assert_eq!(hba.read(0), Ok(cap));
        for (offset, value) in [(PX_CLB, BASE), (PX_FB, BASE + 0x1000), (PX_SERR, u32::MAX), (PX_CMD, 0x11)] {
            hba.write(offset, value).unwrap();
        }
        assert_eq!(hba.turn(0, above, &mut memory).unwrap().work, Work::Signature);
        issue(&mut hba, &mut memory, 0);
        for at in [12, 0x2084] {
            memory[at..at + 4].copy_from_slice(&u32::to_le_bytes(3));
        }
        assert_eq!(hba.turn(0, above, &mut memory).unwrap().went, went);
        assert_eq!(memory[0x3000] == 0, went == Went::Served);
        let saved = hba.save().unwrap();
        assert_eq!(Hba::load_wide(&saved).unwrap().read(0), Ok(0xc124_9f00));
        assert_eq!(Hba::load(&saved).unwrap().read(0), Ok(0x4124_9f00));
    }
}
