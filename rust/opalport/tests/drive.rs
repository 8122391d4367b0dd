//! A drive whose range 1 is locked, by the wrapper. The values are worked from ACS-3 and TCG Core 2.01.

use opalport::{
    call_named, command_fis, decoded_text, frame, opened, receive_fis, send_fis, tokens_text, Answer, Attempt, Command, Config, Denied,
    Drive, Error, Kind, Label, Profile, Range, Reason, Sp,
};

const LOCKED: Range = Range {
    range: 1,
    start: 100,
    length: 10,
    read_lock_enabled: true,
    write_lock_enabled: true,
    read_locked: true,
    write_locked: true,
};

/// StartSession on the Locking SP as Admin1 with the MSID, and Set of range 1: ReadLocked and WriteLocked are 0.
const START: &str = "f8a800000000000000ffa8000000000000ff02f007a8000002050000000201f200a84f50414c4d534944f3f203a80000000900010001f3f1f9f0000000f1";
const UNLOCK: &str = "f8a80000080200030001a80000000600000017f0f201f0f20700f3f20800f3f1f3f1f9f0000000f1";

/// StartSession on the Locking SP without an authority, and Random of ThisSP, of 8 bytes.
const START_AS_ANYBODY: &str = "f8a800000000000000ffa8000000000000ff02f007a8000002050000000201f1f9f0000000f1";
const RANDOM: &str = "f8a80000000000000001a80000000600000601f008f1f9f0000000f1";

fn bytes(hex: &str) -> Vec<u8> {
    (0..hex.len()).step_by(2).map(|at| u8::from_str_radix(&hex[at..at + 2], 16).unwrap()).collect()
}

fn locked() -> Drive {
    Drive::new(&Config { ranges: &[LOCKED], ..Config::default() }).unwrap()
}

fn give(drive: &mut Drive, command: Command, payload: &[u8]) -> Answer {
    drive.accept(&command_fis(command).unwrap(), payload).unwrap()
}

fn call(drive: &mut Drive, tsn: u32, hsn: u32, tokens: &str) -> String {
    let mut block = frame(0x1000, tsn, hsn, &bytes(tokens)).unwrap();
    block.resize(512, 0);
    assert_eq!(drive.accept(&send_fis(1, 0x1000, 1).unwrap(), &block).unwrap().status, 0x50);
    let answer = drive.accept(&receive_fis(1, 0x1000, 1).unwrap(), &[]).unwrap();
    tokens_text(false, opened(&answer.data).unwrap().payload).unwrap()
}

#[test]
fn a_copy_goes_its_own_way() {
    let mut drive = locked();
    call(&mut drive, 0, 0, START);
    assert!(give(&mut drive, Command::ReadQueued { lba: 5, count: 1, tag: 3 }, &[]).held);
    let mut copied = drive.try_clone().unwrap();
    assert_eq!(copied.complete(3, &[]).unwrap().data, [0; 512]);
    assert_eq!(call(&mut copied, 0x1000, 7, UNLOCK), "reply [] 0 0 0");
    assert_eq!(give(&mut copied, Command::ReadDma { lba: 95, count: 6 }, &[]).status, 0x50);
    assert_eq!(give(&mut copied, Command::WriteDma { lba: 5, count: 1 }, &[6; 512]).status, 0x50);
    assert_eq!(drive.complete(3, &[]).unwrap().data, [0; 512]);
    assert_eq!(drive.media(5).unwrap(), [0; 512]);
    assert!(give(&mut drive, Command::ReadDma { lba: 95, count: 6 }, &[]).denied);
    assert_eq!(drive.denial(7).unwrap(), "5 7 deny read 95+6 range 1 ReadLocked");
    drop(drive);
    assert_eq!(copied.media(5).unwrap(), [6; 512]);
}

#[test]
fn a_drive_is_saved_and_loaded() {
    let mut drive = locked();
    call(&mut drive, 0, 0, START);
    assert_eq!(call(&mut drive, 0x1000, 7, UNLOCK), "reply [] 0 0 0");
    assert_eq!(give(&mut drive, Command::WriteDma { lba: 99, count: 2 }, &[5; 1024]).status, 0x50);
    let saved = drive.save().unwrap();
    assert_eq!(give(&mut drive, Command::ReadDma { lba: 99, count: 2 }, &[]).data, [5; 1024]);
    let mut loaded = Drive::load(&saved).unwrap();
    assert_eq!(loaded.save().unwrap(), saved);
    assert!(give(&mut loaded, Command::ReadDma { lba: 99, count: 2 }, &[]).denied);
    assert_eq!(loaded.denial(7).unwrap(), "1 7 deny read 99+2 range 1 ReadLocked");
    assert_eq!(give(&mut loaded, Command::ReadDma { lba: 99, count: 1 }, &[]).data, [5; 512]);
    assert_eq!(Drive::load(&saved[1..]).err(), Some(Error::Malformed));
}

#[test]
fn a_call_is_written_by_name() {
    assert_eq!(call_named("set 1 Locking_Range1 ReadLocked=0 WriteLocked=0").unwrap(), bytes(UNLOCK));
    assert_eq!(call_named("end 1").unwrap(), [0xfa]);
    assert_eq!(call_named("set 1 Locking_Range1 ReadLocked").err(), Some(Error::Malformed));
}

#[test]
fn a_locked_read_is_denied_with_its_reason() {
    let mut drive = locked();
    let answer = give(&mut drive, Command::ReadDma { lba: 95, count: 6 }, &[]);
    assert_eq!((answer.status, answer.error, answer.denied), (0x51, 0x04, true));
    assert_eq!(drive.denial(7).unwrap(), "1 7 deny read 95+6 range 1 ReadLocked");
    let reason = Reason::ReadLocked { range: 1, lba: 95, count: 6 };
    assert_eq!(drive.denied(7), Ok(Some(Denied { step: 1, client: 7, reason })));
    assert!(drive.remedy().unwrap().starts_with("lifted by: Set of Locking_Range1 ReadLocked = 0 by Admins "));
    give(&mut drive, Command::Flush, &[]);
    assert_eq!(drive.denied(7), Ok(None));
}

#[test]
fn a_wrong_pin_is_told_in_numbers() {
    let mut drive = locked();
    let mut block = frame(0x1000, 0, 0, &bytes(&START.replace("4f50414c4d534944", "4f50414c4d534945"))).unwrap();
    block.resize(512, 0);
    drive.accept(&send_fis(1, 0x1000, 1).unwrap(), &block).unwrap();
    let reason = Reason::Attempt { sp: Sp::Locking, authority: 0x0000_0009_0001_0001, failure: Attempt::WrongPin };
    assert_eq!(drive.denied(0), Ok(Some(Denied { step: 1, client: 0, reason })));
}

#[test]
fn a_failed_queue_aborts_until_its_page_is_read() {
    let mut drive = locked();
    assert!(!give(&mut drive, Command::ReadQueued { lba: 100, count: 1, tag: 3 }, &[]).held);
    let failure = drive.failure().unwrap().unwrap();
    assert_eq!((failure.tag, failure.error, failure.lba), (Some(3), 0x04, 100));
    assert_eq!(give(&mut drive, Command::Flush, &[]).status, 0x51);
    assert_eq!(give(&mut drive, Command::ReadQueueError, &[]).data[0], 3);
    assert_eq!(drive.failure().unwrap(), None);
    assert_eq!(give(&mut drive, Command::Flush, &[]).status, 0x50);
}

#[test]
fn an_unlocked_range_gives_what_was_written() {
    let mut drive = locked();
    assert_eq!(call(&mut drive, 0, 0, START), "call 00000000000000ff 000000000000ff03 [7 4096] 0 0 0");
    assert_eq!(call(&mut drive, 0x1000, 7, UNLOCK), "reply [] 0 0 0");
    assert!(give(&mut drive, Command::WriteQueued { lba: 100, count: 1, tag: 9 }, &[]).held);
    assert_eq!(drive.expects(9).unwrap(), 512);
    assert_eq!(drive.complete(9, &[0xa5; 512]).unwrap().status, 0x50);
    assert_eq!(give(&mut drive, Command::ReadDma { lba: 100, count: 1 }, &[]).data, [0xa5; 512]);
}

#[test]
fn what_a_caller_gets_wrong_is_an_error() {
    let mut drive = locked();
    let read = command_fis(Command::ReadDma { lba: 0, count: 1 }).unwrap();
    assert_eq!(drive.payload_length(&read), Ok(0));
    assert_eq!(drive.accept(&read, &[0]), Err(Error::Length));
    assert_eq!(drive.complete(32, &[]), Err(Error::Tag));
    assert_eq!(drive.complete(1, &[]), Err(Error::NotHeld));
    assert_eq!(command_fis(Command::ReadDma { lba: 1 << 48, count: 1 }), Err(Error::Number));
    assert_eq!(command_fis(Command::ReadQueued { lba: 0, count: 1, tag: 32 }), Err(Error::Tag));
    assert_eq!(opened(&[0; 56]), Err(Error::Malformed));
    let field = |label| Config { profile: Profile::Field, label, ..Config::default() };
    for (config, error) in [
        (Config { sectors: 0, ..Config::default() }, Error::Sectors),
        (Config { shadow: 1001, ..Config::default() }, Error::Shadow),
        (Config { msid: &[], ..Config::default() }, Error::Msid),
        (Config { ranges: &[LOCKED, LOCKED], ..Config::default() }, Error::RangeTwice),
        (field(Label { serial: "é", ..Label::default() }), Error::Serial),
        (field(Label { model: "x".repeat(41).as_str(), ..Label::default() }), Error::Model),
        (field(Label { psid: &[0; 33], ..Label::default() }), Error::Psid),
        (field(Label { datastore: Some(1 << 24 | 1), ..Label::default() }), Error::Datastore),
        (field(Label { seed: 1, ..Label::default() }), Error::Seed),
        (Config { label: Label { serial: "1", ..Label::default() }, ..Config::default() }, Error::Serial),
        (Config { shadow: 262_143, ..Config::opal() }, Error::Shadow),
        (Config { label: Label { datastore: Some(10_485_759), ..Label::default() }, ..Config::opal() }, Error::Datastore),
    ] {
        assert_eq!(Drive::new(&config).err(), Some(error));
    }
    assert_eq!(Drive::new(&Config { ranges: &[LOCKED, Range { range: 2, ..LOCKED }], ..Config::default() }).err(), Some(Error::Overlap));
}

#[test]
fn random_bytes_come_of_the_seed() {
    for (seed, told) in [(0, "9e3cda7817b553f1"), (1 << 56, "9f3ddb7918b654f2")] {
        let label = Label { seed, ..Label::default() };
        let mut drive = Drive::new(&Config { label, ranges: &[LOCKED], ..Config::opal() }).unwrap();
        call(&mut drive, 0, 0, START_AS_ANYBODY);
        assert_eq!(call(&mut drive, 0x1000, 7, RANDOM), format!("reply [x{told}] 0 0 0"));
    }
}

#[test]
fn a_field_drive_tells_its_names() {
    let label = Label { serial: "12345", ..Label::default() };
    let mut drive = Drive::new(&Config { profile: Profile::Field, label, ..Config::default() }).unwrap();
    let answer = give(&mut drive, Command::Identify, &[]);
    assert!(decoded_text(Kind::Identify, &answer.data).unwrap().contains("SerialNumber \"12345"));
}

#[test]
fn data_go_into_a_buffer() {
    let mut drive = locked();
    give(&mut drive, Command::WriteDma { lba: 5, count: 1 }, &[7; 512]);
    let mut into = [0; 600];
    let told = drive.accept_into(&command_fis(Command::ReadDma { lba: 5, count: 1 }).unwrap(), &[], &mut into).unwrap();
    assert_eq!((told.status, told.length, &into[..512], &into[512..]), (0x50, 512, &[7; 512][..], &[0; 88][..]));
    assert!(give(&mut drive, Command::ReadQueued { lba: 5, count: 1, tag: 3 }, &[]).held);
    assert_eq!(drive.complete_into(3, &[], &mut into[88..]).unwrap().length, 512);
    assert_eq!(into[599], 7);
    assert_eq!(drive.accept_into(&command_fis(Command::ReadDma { lba: 5, count: 1 }).unwrap(), &[], &mut [0; 511]), Err(Error::Room));
}

#[test]
fn what_is_made_is_told() {
    let about = locked().about().unwrap();
    assert_eq!((about.sectors, about.shadow, about.profile), (1000, 8, Profile::Base));
    let about = Drive::new(&Config::opal()).unwrap().about().unwrap();
    assert_eq!((about.sectors, about.shadow, about.profile), (524_288, 262_144, Profile::Opal));
    let mut drive = locked();
    give(&mut drive, Command::WriteDma { lba: 99, count: 1 }, &[7; 512]);
    assert_eq!((drive.media(99), drive.media(100), drive.media(1000)), (Ok(vec![7; 512]), Ok(vec![0; 512]), Err(Error::Number)));
    assert!(opalport::library_version().unwrap().starts_with(env!("CARGO_PKG_VERSION")));
}

#[test]
fn a_drive_may_move_to_another_thread() {
    let mut drive = locked();
    let status = std::thread::spawn(move || give(&mut drive, Command::Flush, &[]).status).join().unwrap();
    assert_eq!(status, 0x50);
}
