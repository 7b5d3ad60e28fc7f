//! A slave's inputs and outputs.

use crate::outbox::Outbox;
use crate::pdu::{Cfg, NetInfo, put_data_head};
use crate::scenario::{Port, SlaveDesc};
use crate::types::{Address, ErrorCode, TCP, UDP};

const MOST_OUTPUT_IDS: usize = 17;
const MOST_POSITIONS: u16 = 8;
const MOST_INTERVAL: u32 = 1000;

/// One data id in one direction: its ports by position and its far end.
struct Channel {
    id: u16,
    ports: Vec<u8>,
    far: Option<Address>,
    every: u32,
    base: u32,
    /// For an input: the ordinal within this run whose payload is kept.
    kept: Option<u32>,
    length: usize,
}

impl Channel {
    fn new(id: u16) -> Channel {
        Channel { id, ports: Vec::new(), far: None, every: 1, base: 0, kept: None, length: 0 }
    }

    fn number(&self, steps: u32) -> u16 {
        self.base.wrapping_add(steps / self.every) as u16
    }
}

pub struct Wiring {
    inputs: Vec<Port>,
    outputs: Vec<Port>,
    resolution: (u32, u32),
    time_res: bool,
    ins: Vec<Channel>,
    /// Ascending by id.
    outs: Vec<Channel>,
    values: Vec<i128>,
}

impl Wiring {
    pub fn new(desc: &SlaveDesc) -> Wiring {
        Wiring {
            inputs: desc.inputs.clone(),
            outputs: desc.outputs.clone(),
            resolution: (desc.numerator, desc.denominator),
            time_res: false,
            ins: Vec::new(),
            outs: Vec::new(),
            values: vec![0; desc.inputs.len()],
        }
    }

    /// Not for Parameter and Logging, which are the slave's own.
    pub fn apply(&mut self, body: &Cfg) -> Result<(), ErrorCode> {
        match *body {
            Cfg::Clear => {
                self.time_res = false;
                self.ins.clear();
                self.outs.clear();
                self.values.fill(0);
            }
            Cfg::TimeRes { numerator, denominator } => {
                if (numerator, denominator) != self.resolution {
                    return Err(ErrorCode::NotSupported);
                }
                self.time_res = true;
            }
            Cfg::Steps { data_id, steps } => {
                let mut known = false;
                if (1..=MOST_INTERVAL).contains(&steps) {
                    for c in self.ins.iter_mut().chain(&mut self.outs) {
                        if c.id == data_id {
                            c.every = steps;
                            known = true;
                        }
                    }
                }
                if !known {
                    return Err(ErrorCode::NotSupported);
                }
            }
            Cfg::Input { data_id, pos, vr, source } => {
                let port = self.inputs.iter().position(|p| p.vr == vr);
                let port = port.ok_or(ErrorCode::UnknownVr)?;
                if source != self.inputs[port].kind {
                    return Err(ErrorCode::TypeMismatch);
                }
                let at = self.ins.iter().position(|c| c.id == data_id);
                let length = at.map_or(0, |i| self.ins[i].ports.len());
                let taken = self.ins.iter().any(|c| c.ports.contains(&(port as u8)));
                if usize::from(pos) != length || taken {
                    return Err(ErrorCode::Position);
                }
                let at = at.unwrap_or_else(|| {
                    self.ins.push(Channel::new(data_id));
                    self.ins.len() - 1
                });
                self.ins[at].ports.push(port as u8);
                self.ins[at].length += source.width();
            }
            Cfg::Output { data_id, pos, vr } => {
                let at = self.outs.binary_search_by_key(&data_id, |c| c.id);
                if at.is_err() && self.outs.len() >= MOST_OUTPUT_IDS {
                    return Err(ErrorCode::NotSupported);
                }
                let port = self.outputs.iter().position(|p| p.vr == vr);
                let port = port.ok_or(ErrorCode::UnknownVr)?;
                let length = at.map_or(0, |i| self.outs[i].ports.len());
                if usize::from(pos) != length || pos >= MOST_POSITIONS {
                    return Err(ErrorCode::Position);
                }
                let at = at.unwrap_or_else(|i| {
                    self.outs.insert(i, Channel::new(data_id));
                    i
                });
                self.outs[at].ports.push(port as u8);
            }
            Cfg::Target(net) => set_far(&mut self.outs, net)?,
            Cfg::Source(net) => set_far(&mut self.ins, net)?,
            _ => return Err(ErrorCode::NotSupported),
        }
        Ok(())
    }

    pub fn complete(&self) -> bool {
        self.time_res && self.ins.iter().chain(&self.outs).all(|c| c.far.is_some())
    }

    pub fn take_data(&mut self, from: Address, seq: u16, id: u16, payload: &[u8], steps: u32) {
        let Some(c) = self.ins.iter_mut().find(|c| c.id == id) else { return };
        let ordinal = steps / c.every;
        if c.far != Some(from)
            || payload.len() != c.length
            || seq != c.number(steps)
            || c.kept == Some(ordinal)
        {
            return;
        }
        c.kept = Some(ordinal);
        let mut rest = payload;
        for &port in &c.ports {
            let kind = self.inputs[port as usize].kind;
            self.values[port as usize] = kind.value(kind.read(rest));
            rest = &rest[kind.width()..];
        }
    }

    pub fn ready(&self, steps: u32) -> bool {
        self.ins.iter().all(|c| c.kept == Some(steps / c.every))
    }

    pub fn inputs(&self) -> &[i128] {
        &self.values
    }

    /// Sends each output id that is due. `complete` is true.
    pub fn send_due(&self, steps: u32, outputs: &[i128], out: &mut Outbox) {
        for c in &self.outs {
            if steps.is_multiple_of(c.every)
                && let Some(to) = c.far
            {
                out.push_with(to, |bytes| {
                    put_data_head(bytes, c.number(steps), c.id);
                    for &port in &c.ports {
                        self.outputs[port as usize].kind.write(outputs[port as usize], bytes);
                    }
                });
            }
        }
    }

    pub fn restart(&mut self, steps: u32) {
        for c in self.ins.iter_mut().chain(&mut self.outs) {
            c.base = c.base.wrapping_add(steps / c.every).wrapping_add(1);
            c.kept = None;
        }
        self.values.fill(0);
    }
}

fn set_far(list: &mut [Channel], net: NetInfo) -> Result<(), ErrorCode> {
    if net.protocol != UDP && net.protocol != TCP {
        return Err(ErrorCode::NotSupported);
    }
    match list.iter_mut().find(|c| c.id == net.data_id) {
        Some(c) if c.far.is_none() => {
            c.far = Some(Address { ip: net.ip, port: net.port });
            Ok(())
        }
        _ => Err(ErrorCode::Position),
    }
}
