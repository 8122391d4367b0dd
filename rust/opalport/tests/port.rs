//! A port whose drive has range 1 locked for reads, by the wrapper. The values are worked from AHCI 1.3.1 and ACS-3.

use opalport::{Config, EngineStep, Error, Port, Range, Request, Taken};

const LOCKED: Range = Range {
    range: 1,
    start: 100,
    length: 10,
    read_lock_enabled: true,
    write_lock_enabled: false,
    read_locked: true,
    write_locked: false,
};

fn port() -> Port {
    Port::new(&Config { ranges: &[LOCKED], ..Config::default() }).unwrap()
}

/// Has the engine do what it may, and gives how many steps that were.
fn finish(port: &mut Port) -> usize {
    (0..).take_while(|_| port.turn(0).unwrap().is_some()).count()
}

#[test]
fn a_denied_read_stops_the_queue_until_the_port_recovers() {
    let mut port = port();
    assert_eq!(port.put(1, 3, &Request::Read { lba: 100, count: 1 }), Ok(1));
    assert_eq!(port.put(2, 5, &Request::Write { lba: 200, bytes: &[0x5a; 512] }), Ok(2));
    assert_eq!(port.ready().unwrap(), [EngineStep::Issue { tag: 3 }, EngineStep::Issue { tag: 5 }]);
    assert_eq!((port.issue(5), port.issue(3), port.accept(5), port.accept(3)), (Ok(3), Ok(4), Ok(5), Ok(6)));
    let shown = port.shown().unwrap();
    assert_eq!((shown.task, shown.issued, shown.active, shown.denials), (0x0451, 1 << 3, 1 << 3 | 1 << 5, 1));
    assert_eq!(port.denial(0).unwrap(), "6 1 deny read 100+1 range 1 ReadLocked");
    assert_eq!(port.denial(1).unwrap(), "");
    assert_eq!(port.complete(5), Err(Error::PortFailed));
    assert_eq!(port.ready().unwrap(), [EngineStep::Recover]);
    assert_eq!(port.recover(), Ok(7));
    assert_eq!(port.take(2, 3), Err(Error::PortNotYours));
    assert_eq!(port.take(1, 3), Ok((8, Taken::Failed { status: 0x51, error: 0x04 })));
    assert_eq!(finish(&mut port), 3);
    assert_eq!(port.take(2, 5), Ok((12, Taken::Done(Vec::new()))));
}

#[test]
fn a_port_gives_what_was_written() {
    let mut port = port();
    let bytes: Vec<u8> = (0..1024).map(|at| (at % 251) as u8).collect();
    port.put(1, 0, &Request::WriteDma { lba: 7, bytes: &bytes }).unwrap();
    assert_eq!(finish(&mut port), 2);
    assert_eq!(port.take(1, 0), Ok((4, Taken::Done(Vec::new()))));
    port.put(1, 31, &Request::Read { lba: 7, count: 2 }).unwrap();
    assert_eq!(finish(&mut port), 3);
    assert_eq!(port.take(1, 31), Ok((9, Taken::Done(bytes))));
}

#[test]
fn a_port_answers_level_0_discovery() {
    let mut port = port();
    port.put(1, 0, &Request::Receive { protocol: 1, com_id: 1, blocks: 1 }).unwrap();
    assert_eq!(finish(&mut port), 2);
    let Ok((4, Taken::Done(data))) = port.take(1, 0) else { panic!("no answer") };
    assert_eq!((data.len(), &data[4..8]), (512, &[0, 0, 0, 1][..]));
}

#[test]
fn a_reset_stops_what_waits() {
    let mut port = port();
    port.put(1, 2, &Request::Flush).unwrap();
    assert_eq!(port.hardware_reset(2), Ok(2));
    assert_eq!(port.take(1, 2), Ok((3, Taken::Reset)));
    assert_eq!(port.power_cycle(2), Ok(4));
    assert_eq!(port.turn(0), Ok(None));
}

#[test]
fn what_a_caller_gets_wrong_is_an_error() {
    let mut port = port();
    assert_eq!(port.issue(32), Err(Error::Tag));
    assert_eq!(port.issue(0), Err(Error::PortNotPrepared));
    assert_eq!(port.accept(0), Err(Error::PortNotIssued));
    assert_eq!(port.complete(0), Err(Error::PortNotAccepted));
    assert_eq!(port.recover(), Err(Error::PortNotFailed));
    assert_eq!(port.take(1, 0), Err(Error::PortNotAnswered));
    assert_eq!(port.put(1, 0, &Request::Read { lba: 0, count: 257 }), Err(Error::PortSize));
    assert_eq!(port.put(1, 0, &Request::Write { lba: 0, bytes: &[0; 511] }), Err(Error::PortSize));
    assert_eq!(port.put(1, 0, &Request::Receive { protocol: 1, com_id: 1, blocks: 65_536 }), Err(Error::Number));
    port.put(1, 0, &Request::Identify).unwrap();
    assert_eq!(port.put(1, 0, &Request::Identify), Err(Error::PortSlotBusy));
    port.put(1, 1, &Request::Read { lba: 0, count: 1 }).unwrap();
    port.issue(0).unwrap();
    assert_eq!(port.issue(1), Err(Error::PortQueue));
    assert_eq!(Port::new(&Config { sectors: 0, ..Config::default() }).err(), Some(Error::Sectors));
}

#[test]
fn a_port_may_move_to_another_thread() {
    let mut port = port();
    let told = std::thread::spawn(move || port.put(1, 0, &Request::Flush)).join().unwrap();
    assert_eq!(told, Ok(1));
}
