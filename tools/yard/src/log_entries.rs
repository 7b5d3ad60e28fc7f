//! The log as a list of entries, each message in a vector of its own. Built with `--features entries`.

use crate::peers::{PeerId, Peers};
use crate::trace::Entry;
use crate::types::Address;

pub enum LogEntry {
    Sent { from: Address, to: Address, bytes: Vec<u8> },
    Got { at: Address, from: Address, bytes: Vec<u8> },
    Idle { at: Address },
    Turn { at: Address },
}

#[derive(Default)]
pub struct Log {
    pub peers: Peers,
    entries: Vec<LogEntry>,
}

impl Log {
    pub fn sent(&mut self, from: u8, to: PeerId, bytes: &[u8]) {
        let (from, to) = (self.peers.address(from.into()), self.peers.address(to));
        self.entries.push(LogEntry::Sent { from, to, bytes: bytes.to_vec() });
    }

    pub fn got(&mut self, at: u8, from: PeerId, bytes: &[u8]) {
        let (at, from) = (self.peers.address(at.into()), self.peers.address(from));
        self.entries.push(LogEntry::Got { at, from, bytes: bytes.to_vec() });
    }

    pub fn idle(&mut self, at: u8) {
        self.entries.push(LogEntry::Idle { at: self.peers.address(at.into()) });
    }

    pub fn turn(&mut self, at: u8) {
        self.entries.push(LogEntry::Turn { at: self.peers.address(at.into()) });
    }

    pub fn entries(&self) -> impl Iterator<Item = Entry<'_>> {
        self.entries.iter().map(|e| match e {
            LogEntry::Sent { from, to, bytes } => Entry::Sent { from: *from, to: *to, bytes },
            LogEntry::Got { at, from, bytes } => Entry::Got { at: *at, from: *from, bytes },
            LogEntry::Idle { at } => Entry::Idle { at: *at },
            LogEntry::Turn { at } => Entry::Turn { at: *at },
        })
    }
}
