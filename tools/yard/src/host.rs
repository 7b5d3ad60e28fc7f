//! The ends of one process, their rounds, and replay.

use crate::log::Log;
use crate::master::{MasterCore, Report};
use crate::net::Net;
use crate::outbox::Outbox;
use crate::peers::{AddressMap, PeerId};
use crate::rows::Rows;
use crate::scenario::Scenario;
use crate::slave::SlaveCore;
use crate::trace::Entry;
use crate::types::Address;

const MOST_GRAMS: u32 = 64;

pub enum End {
    Master(MasterCore),
    Slave(SlaveCore),
}

impl End {
    fn address(&self) -> Address {
        match self {
            End::Master(m) => m.address(),
            End::Slave(s) => s.address(),
        }
    }

    fn on_gram(&mut self, from: Address, bytes: &[u8], out: &mut Outbox) {
        match self {
            End::Master(m) => m.on_gram(from, bytes, out),
            End::Slave(s) => s.on_gram(from, bytes, out),
        }
    }

    fn on_turn(&mut self, out: &mut Outbox) {
        match self {
            End::Master(m) => m.on_turn(out),
            End::Slave(s) => s.on_turn(out),
        }
    }

    fn report(&self) -> Option<Report> {
        match self {
            End::Master(m) => m.report(),
            End::Slave(_) => None,
        }
    }

    fn into_rows(self) -> Option<Rows> {
        match self {
            End::Master(m) => Some(m.into_rows()),
            End::Slave(_) => None,
        }
    }
}

/// The hosted ends; bit 0 is the master, bit s is slave s.
fn make_ends(sc: &Scenario, hosted: u32) -> Vec<End> {
    let master = (hosted & 1 == 1).then(|| End::Master(MasterCore::new(sc)));
    let slaves = sc
        .slaves
        .iter()
        .enumerate()
        .filter(|(s, _)| hosted >> (s + 1) & 1 == 1)
        .map(|(_, d)| End::Slave(SlaveCore::new(d, sc.micro)));
    master.into_iter().chain(slaves).collect()
}

pub fn all_hosted(sc: &Scenario) -> u32 {
    (1 << (sc.slaves.len() + 1)) - 1
}

/// A host of all ends of a scenario.
pub struct Host {
    ends: Vec<End>,
    log: Log,
    out: Outbox,
}

impl Host {
    pub fn new(sc: &Scenario) -> Host {
        let mut log = Log::default();
        for address in sc.addresses() {
            log.peers.number(address);
        }
        Host { ends: make_ends(sc, all_hosted(sc)), log, out: Outbox::default() }
    }

    /// One round; the report ends it.
    pub fn round(&mut self, net: &mut impl Net) -> Option<Report> {
        let Host { ends, log, out } = self;
        for (at, end) in ends.iter_mut().enumerate() {
            for _ in 0..MOST_GRAMS {
                let Some((from, bytes)) = net.take(at as PeerId) else {
                    log.idle(at as u8);
                    break;
                };
                log.got(at as u8, from, bytes);
                end.on_gram(log.peers.address(from), bytes, out);
                send_all(at, out, net, log);
            }
        }
        for (at, end) in ends.iter_mut().enumerate() {
            log.turn(at as u8);
            end.on_turn(out);
            send_all(at, out, net, log);
            if let Some(report) = end.report() {
                return Some(report);
            }
        }
        None
    }

    pub fn run(&mut self, net: &mut impl Net) -> Report {
        loop {
            if let Some(report) = self.round(net) {
                return report;
            }
        }
    }

    pub fn rows(&self) -> &Rows {
        match &self.ends[0] {
            End::Master(m) => m.rows(),
            End::Slave(_) => unreachable!("the master is the first end"),
        }
    }

    pub fn entries(&self) -> impl Iterator<Item = Entry<'_>> {
        self.log.entries()
    }
}

fn send_all(at: usize, out: &mut Outbox, net: &mut impl Net, log: &mut Log) {
    for (to, bytes) in out.iter() {
        let to = log.peers.number(to);
        net.send(at as PeerId, to, bytes);
        log.sent(at as u8, to, bytes);
    }
    out.clear();
}

pub enum ReplayFault {
    Differs { at: u64 },
    Unended { entries: u64 },
}

/// Runs the hosted ends anew over the entries.
pub fn replay<'a>(
    sc: &Scenario,
    hosted: u32,
    entries: impl Iterator<Item = Entry<'a>>,
) -> Result<(Report, Rows), ReplayFault> {
    let mut ends = make_ends(sc, hosted);
    let places: AddressMap<usize> =
        ends.iter().enumerate().map(|(i, end)| (end.address(), i)).collect();
    let mut out = Outbox::default();
    let (mut sender, mut next) = (Address::default(), 0);
    let mut report = None;
    let mut count = 0;
    for entry in entries {
        let differs = Err(ReplayFault::Differs { at: count });
        count += 1;
        if report.is_some() {
            return differs;
        }
        if let Entry::Sent { from, to, bytes } = entry {
            if next >= out.len() || from != sender || (to, bytes) != out.get(next) {
                return differs;
            }
            next += 1;
            continue;
        }
        if next < out.len() {
            return differs;
        }
        let (Entry::Got { at, .. } | Entry::Idle { at } | Entry::Turn { at }) = entry else {
            return differs;
        };
        let Some(&place) = places.get(&at) else { return differs };
        sender = at;
        match entry {
            Entry::Got { from, bytes, .. } => {
                out.clear();
                next = 0;
                ends[place].on_gram(from, bytes, &mut out);
            }
            Entry::Turn { .. } => {
                out.clear();
                next = 0;
                ends[place].on_turn(&mut out);
            }
            _ => continue,
        }
        report = ends[0].report();
    }
    match report {
        Some(report) if next >= out.len() => {
            let rows = ends.swap_remove(0).into_rows().expect("a master reported");
            Ok((report, rows))
        }
        _ => Err(ReplayFault::Unended { entries: count }),
    }
}
