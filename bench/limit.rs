//! The limit of the transport: it answers every request with a constant reply of the right form,
//! and keeps no tree.
//!
//!   limit NAMES
//!
//! It keeps one file of 16 MiB: WRITE changes it and READ reads it. READDIR gives 32 names until
//! they are NAMES or more. The replies to all packets of one read leave in one write.

use std::fs::File;
use std::io::{stdin, stdout, ErrorKind, Read, Result, Write};
use std::os::fd::AsFd;

const FILE_SIZE: usize = 16 << 20;
const LONGEST_PACKET: usize = 262144;
const LARGEST_DATA: usize = 261120;
const BATCH: usize = 65536;

struct Limit {
    contents: Vec<u8>,
    names: u32,
    listed: u32,
    output: Vec<u8>,
}

fn u32_at(bytes: &[u8], at: usize) -> usize {
    u32::from_be_bytes(bytes[at..at + 4].try_into().unwrap()) as usize
}

fn u64_at(bytes: &[u8], at: usize) -> usize {
    u64::from_be_bytes(bytes[at..at + 8].try_into().unwrap()) as usize
}

impl Limit {
    /// Begins a reply of that many bytes behind its id.
    fn begin(&mut self, kind: u8, id: &[u8], count: usize) {
        let length = (1 + id.len() + count) as u32;
        self.output.extend_from_slice(&length.to_be_bytes());
        self.output.push(kind);
        self.output.extend_from_slice(id);
    }

    fn u32(&mut self, value: usize) {
        self.output.extend_from_slice(&(value as u32).to_be_bytes());
    }

    fn status(&mut self, id: &[u8], code: usize) {
        self.begin(101, id, 19);
        self.u32(code);
        self.u32(7);
        self.output.extend_from_slice(b"Success");
        self.u32(0);
    }

    /// The attributes of an empty file.
    fn attributes(&mut self) {
        self.u32(0xf);
        self.output.extend_from_slice(&[0; 16]);
        self.u32(0o100644);
        self.output.extend_from_slice(&[0; 8]);
    }

    fn read(&mut self, id: &[u8], offset: usize, count: usize) {
        if offset >= FILE_SIZE {
            return self.status(id, 1);
        }
        let count = count.min(LARGEST_DATA).min(FILE_SIZE - offset);
        self.begin(103, id, 4 + count);
        self.u32(count);
        self.output.extend_from_slice(&self.contents[offset..offset + count]);
    }

    fn list(&mut self, id: &[u8]) {
        if self.listed >= self.names {
            return self.status(id, 1);
        }
        self.listed += 32;
        self.begin(104, id, 4 + 32 * (4 + 6 + 4 + 61 + 32));
        self.u32(32);
        for _ in 0..32 {
            self.u32(6);
            self.output.extend_from_slice(b"d00000");
            self.u32(61);
            self.output.extend_from_slice(&[b'-'; 61]);
            self.attributes();
        }
    }

    /// Answers one packet, from its type on.
    fn answer(&mut self, packet: &[u8]) {
        let id = &packet[1..5];
        match packet[0] {
            1 => self.begin(2, &[0, 0, 0, 3], 0),
            3 | 11 => {
                self.listed = 0;
                self.begin(102, id, 12);
                self.u32(8);
                self.output.extend_from_slice(&[0; 8]);
            }
            5 => self.read(id, u64_at(packet, 17), u32_at(packet, 25)),
            6 => {
                let (offset, count) = (u64_at(packet, 17), u32_at(packet, 25));
                self.contents[offset..offset + count].copy_from_slice(&packet[29..29 + count]);
                self.status(id, 0);
            }
            12 => self.list(id),
            17 => {
                self.begin(105, id, 32);
                self.attributes();
            }
            _ => self.status(id, 0),
        }
    }

    fn flush(&mut self, to_client: &mut File) -> Result<()> {
        to_client.write_all(&self.output)?;
        self.output.clear();
        Ok(())
    }

    fn serve(&mut self, mut from_client: File, mut to_client: File) -> Result<()> {
        let mut input = vec![0; 2 * LONGEST_PACKET];
        let mut end = 0;
        loop {
            let count = from_client.read(&mut input[end..])?;
            if count == 0 {
                return Ok(());
            }
            end += count;
            let mut start = 0;
            while end - start >= 4 && end - start >= 4 + u32_at(&input, start) {
                let packet = start + 4..start + 4 + u32_at(&input, start);
                start = packet.end;
                self.answer(&input[packet]);
                if self.output.len() >= BATCH {
                    self.flush(&mut to_client)?;
                }
            }
            self.flush(&mut to_client)?;
            input.copy_within(start..end, 0);
            end -= start;
        }
    }
}

fn main() -> Result<()> {
    let names = std::env::args().nth(1).and_then(|word| word.parse().ok());
    let names = names.ok_or(ErrorKind::InvalidInput)?;
    let from_client = File::from(stdin().as_fd().try_clone_to_owned()?);
    let to_client = File::from(stdout().as_fd().try_clone_to_owned()?);
    let mut limit = Limit { contents: vec![0; FILE_SIZE], names, listed: 0, output: vec![] };
    limit.serve(from_client, to_client)
}
