//! The bytes of a trace.

use std::io::{self, Write};

use crate::host::Host;
use crate::types::Address;

const MAGIC: &[u8; 5] = b"DCPR\x01";
const HEADER: usize = 13;

#[derive(Clone, Copy)]
pub enum Entry<'a> {
    Sent { from: Address, to: Address, bytes: &'a [u8] },
    Got { at: Address, from: Address, bytes: &'a [u8] },
    Idle { at: Address },
    Turn { at: Address },
}

pub struct TraceFault {
    pub at: usize,
    pub why: &'static str,
}

pub struct Trace<'a> {
    pub hosted: u32,
    pub scenario: &'a [u8],
    entries: &'a [u8],
}

/// Reads entries from the front of `rest`; `total` is the length of the whole trace.
struct Entries<'a> {
    rest: &'a [u8],
    total: usize,
}

impl<'a> Entries<'a> {
    fn fault(&self, ahead: usize, why: &'static str) -> TraceFault {
        TraceFault { at: self.total - self.rest.len() + ahead, why }
    }

    fn next(&mut self) -> Result<Option<Entry<'a>>, TraceFault> {
        let rest = self.rest;
        let Some(&tag) = rest.first() else { return Ok(None) };
        let short = TraceFault { at: self.total, why: "SHORT" };
        let (head, size) = match tag {
            1 | 2 => {
                let Some(head) = rest.get(..15) else { return Err(short) };
                let size = usize::from(u16::from_le_bytes([head[13], head[14]]));
                if if tag == 1 { !(1..=1024).contains(&size) } else { size > 1025 } {
                    return Err(self.fault(13, "LENGTH"));
                }
                (15, size)
            }
            3 | 4 => (7, 0),
            _ => return Err(self.fault(0, "TAG")),
        };
        if rest.len() < head + size {
            return Err(short);
        }
        let (spelling, after) = rest.split_at(head + size);
        self.rest = after;
        let at = Address::from_bytes(&spelling[1..7]);
        let far = || Address::from_bytes(&spelling[7..13]);
        Ok(Some(match tag {
            1 => Entry::Sent { from: at, to: far(), bytes: &spelling[15..] },
            2 => Entry::Got { at, from: far(), bytes: &spelling[15..] },
            3 => Entry::Idle { at },
            _ => Entry::Turn { at },
        }))
    }
}

impl<'a> Trace<'a> {
    pub fn read(bytes: &'a [u8]) -> Result<Trace<'a>, TraceFault> {
        let n = bytes.len();
        let header = |at| Err(TraceFault { at, why: "HEADER" });
        if let Some(at) = bytes.iter().zip(MAGIC).position(|(a, b)| a != b) {
            return header(at);
        }
        if n < 9 {
            return header(n);
        }
        let word = |at: usize| u32::from_le_bytes(bytes[at..at + 4].try_into().expect("4 bytes"));
        let hosted = word(5);
        if hosted >> 17 != 0 {
            return header(5);
        }
        if n < HEADER || n - HEADER < word(9) as usize {
            return header(n);
        }
        let (scenario, entries) = bytes[HEADER..].split_at(word(9) as usize);
        let mut judged = Entries { rest: entries, total: n };
        while judged.next()?.is_some() {}
        Ok(Trace { hosted, scenario, entries })
    }

    pub fn entries(&self) -> impl Iterator<Item = Entry<'a>> {
        let mut entries = Entries { rest: self.entries, total: self.entries.len() };
        std::iter::from_fn(move || entries.next().ok().flatten())
    }
}

/// Writes in large pieces what is put together in one buffer.
pub struct Writer<'a, W> {
    buffer: Vec<u8>,
    out: &'a mut W,
}

const PIECE: usize = 1 << 16;
const MOST_ENTRY: usize = 15 + 1025;

impl<W: Write> Writer<'_, W> {
    fn room(&mut self) -> io::Result<&mut Vec<u8>> {
        if self.buffer.len() > PIECE - MOST_ENTRY {
            self.out.write_all(&self.buffer)?;
            self.buffer.clear();
        }
        Ok(&mut self.buffer)
    }

    pub fn entry(&mut self, entry: Entry<'_>) -> io::Result<()> {
        let (tag, at, far) = match entry {
            Entry::Sent { from, to, bytes } => (1, from, Some((to, bytes))),
            Entry::Got { at, from, bytes } => (2, at, Some((from, bytes))),
            Entry::Idle { at } => (3, at, None),
            Entry::Turn { at } => (4, at, None),
        };
        let buffer = self.room()?;
        let mut head = [0; 15];
        head[0] = tag;
        head[1..7].copy_from_slice(&at.bytes());
        let Some((far, bytes)) = far else {
            buffer.extend_from_slice(&head[..7]);
            return Ok(());
        };
        head[7..13].copy_from_slice(&far.bytes());
        head[13..].copy_from_slice(&(bytes.len() as u16).to_le_bytes());
        buffer.extend_from_slice(&head);
        buffer.extend_from_slice(bytes);
        Ok(())
    }
}

/// Writes the trace of a host.
pub fn write(hosted: u32, scenario: &[u8], host: &Host, out: &mut impl Write) -> io::Result<()> {
    let mut head = MAGIC.to_vec();
    head.extend_from_slice(&hosted.to_le_bytes());
    head.extend_from_slice(&(scenario.len() as u32).to_le_bytes());
    out.write_all(&head)?;
    out.write_all(scenario)?;
    let mut writer = Writer { buffer: Vec::with_capacity(PIECE), out };
    for entry in host.entries() {
        writer.entry(entry)?;
    }
    writer.out.write_all(&writer.buffer)
}
