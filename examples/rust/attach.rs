//! A driver in plain Rust on `opalport hba`: its registers over a pipe, its memory here. It reads a sector that range 1
//! denies, and prints what the registers say and why.
//!
//! usage: attach COMMAND WORD ..      as: attach crates/opalport/out/opalport hba --range "1 100 10 1 1 1 1"

use std::io::{BufRead, BufReader, Write};
use std::process::{ChildStdin, ChildStdout, Command, Stdio};

/// Where the driver's memory stands, and how much there is.
const BASE: usize = 0x10_0000;
const SIZE: usize = 0x1_0000;

struct Device {
    to: ChildStdin,
    from: BufReader<ChildStdout>,
    memory: Vec<u8>,
}

impl Device {
    fn send(&mut self, line: &str) {
        writeln!(self.to, "{line}").expect("the device reads");
    }

    fn line(&mut self) -> String {
        let mut line = String::new();
        self.from.read_line(&mut line).expect("the device writes");
        line.trim_end().to_string()
    }

    /// The place of bytes among the driver's memory, where all of them stand there.
    fn place(&self, at: &str, len: usize) -> Option<usize> {
        let at = usize::from_str_radix(at, 16).ok()?.checked_sub(BASE)?;
        (at + len <= self.memory.len()).then_some(at)
    }

    /// Sends a line. Until the last line of its answer comes, answers what the device asks of memory.
    fn ask(&mut self, request: &str) -> String {
        self.send(request);
        loop {
            let line = self.line();
            let words: Vec<&str> = line.split(' ').collect();
            match words[..] {
                ["m", at, len] => {
                    let len = usize::from_str_radix(len, 16).expect("a length");
                    let bytes = self.place(at, len).map(|place| hex(&self.memory[place..place + len]));
                    self.send(bytes.as_deref().unwrap_or("none"));
                }
                ["p", at, bytes] => {
                    let bytes = unhex(bytes);
                    let place = self.place(at, bytes.len());
                    if let Some(place) = place {
                        self.memory[place..place + bytes.len()].copy_from_slice(&bytes);
                    }
                    self.send(if place.is_some() { "ok" } else { "none" });
                }
                _ => return line,
            }
        }
    }

    fn write(&mut self, offset: u32, value: u32) {
        self.ask(&format!("w {offset:x} {value:x}"));
    }

    fn put(&mut self, at: usize, bytes: &[u8]) {
        self.memory[at - BASE..at - BASE + bytes.len()].copy_from_slice(bytes);
    }
}

fn hex(bytes: &[u8]) -> String {
    bytes.iter().map(|byte| format!("{byte:02x}")).collect()
}

fn unhex(text: &str) -> Vec<u8> {
    (0..text.len() / 2).map(|k| u8::from_str_radix(&text[2 * k..2 * k + 2], 16).expect("hex")).collect()
}

fn main() {
    let words: Vec<String> = std::env::args().skip(1).collect();
    let mut child = Command::new(&words[0])
        .args(&words[1..])
        .stdin(Stdio::piped())
        .stdout(Stdio::piped())
        .spawn()
        .expect("the device starts");
    let mut device = Device {
        to: child.stdin.take().expect("a pipe"),
        from: BufReader::new(child.stdout.take().expect("a pipe")),
        memory: vec![0; SIZE],
    };

    device.write(0x100, 0x10_0000); // PxCLB: the command list
    device.write(0x108, 0x10_1000); // PxFB: received FISes
    device.write(0x130, 0xffff_ffff); // PxSERR: the exchange is seen
    device.write(0x118, 0x11); // PxCMD: FRE and ST
    println!("{}", device.ask("turn"));

    // Slot 0: a FIS of five words, one descriptor, its table at 102000h; READ DMA EXT of one sector at LBA 100.
    device.put(0x10_0000, &[5, 0, 1, 0, 0, 0, 0, 0, 0x00, 0x20, 0x10, 0x00]);
    device.put(0x10_2000, &[0x27, 0x80, 0x25, 0, 100, 0, 0, 0x40, 0, 0, 0, 0, 1, 0, 0, 0, 0, 0, 0, 0]);
    device.put(0x10_2080, &[0x00, 0x30, 0x10, 0x00, 0, 0, 0, 0, 0, 0, 0, 0, 0xff, 0x01, 0, 0]);
    device.write(0x138, 1); // PxCI
    println!("{}", device.ask("turn"));
    println!("{}", device.ask("turn"));

    println!("PxCI {}", device.ask("r 138"));
    println!("PxTFD {}", device.ask("r 120"));
    let denials: usize = device.ask("why").parse().expect("a number");
    for _ in 0..denials {
        println!("{}", device.line());
    }
    drop(device);
    std::process::exit(child.wait().expect("the device ends").code().unwrap_or(2));
}
