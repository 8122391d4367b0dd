//! A read that crosses into a locked range, and what denied it.

use opalport::{command_fis, Command, Config, Drive, Error, Range};

fn main() -> Result<(), Error> {
    let locked = Range { range: 1, start: 100, length: 10, read_lock_enabled: true, read_locked: true, ..Range::default() };
    let mut drive = Drive::new(&Config { ranges: &[locked], ..Config::default() })?;
    let answer = drive.accept(&command_fis(Command::ReadDma { lba: 95, count: 6 })?, &[])?;
    println!("{:02x} {:02x} {}", answer.status, answer.error, drive.denial(7)?);
    Ok(())
}
