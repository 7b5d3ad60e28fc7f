//! The network in memory.

use std::cmp::Reverse;
use std::collections::{BinaryHeap, VecDeque};

use crate::peers::PeerId;
use crate::scenario::{NetAct, NetPlan};
use crate::types::Generator;

pub trait Net {
    fn send(&mut self, from: PeerId, to: PeerId, bytes: &[u8]);
    /// The next datagram for this end; the bytes stand until the next call.
    fn take(&mut self, at: PeerId) -> Option<(PeerId, &[u8])>;
}

const LAST_AGE: u64 = 32_767;

/// A message that waits; its buffer is used again.
struct Slot {
    from: PeerId,
    deliveries: u8,
    bytes: Vec<u8>,
}

/// Due number, message number, whether it is the second delivery, slot.
type Delivery = (u64, u64, bool, u32);

/// Deliveries at once stay in order by themselves; the others wait in a heap.
#[derive(Default)]
struct Mailbox {
    prompt: VecDeque<(u64, u32)>,
    late: BinaryHeap<Reverse<Delivery>>,
}

impl Mailbox {
    fn pop(&mut self, sent: u64) -> Option<(u64, u32)> {
        let late = self.late.peek().filter(|Reverse(d)| d.0 <= sent);
        match (self.prompt.front(), late) {
            (Some(&(i, _)), Some(Reverse(d))) if (i, i, false) < (d.0, d.1, d.2) => {
                self.prompt.pop_front()
            }
            (_, Some(_)) => self.late.pop().map(|Reverse((_, i, _, slot))| (i, slot)),
            _ => self.prompt.pop_front(),
        }
    }
}

pub struct MemoryNet {
    plan: NetPlan,
    draws: Generator,
    /// Messages so far of each end and type, where the plan has lines.
    counts: Vec<[u32; 256]>,
    sent: u64,
    boxes: Vec<Mailbox>,
    slots: Vec<Slot>,
    free: Vec<u32>,
}

impl MemoryNet {
    /// A net of the ends 0 to `ends` - 1.
    pub fn new(ends: usize, plan: NetPlan) -> MemoryNet {
        MemoryNet {
            draws: Generator(plan.chaos.map_or(0, |c| c.start)),
            counts: if plan.lines.is_empty() { Vec::new() } else { vec![[0; 256]; ends] },
            plan,
            sent: 0,
            boxes: (0..ends).map(|_| Mailbox::default()).collect(),
            slots: Vec::new(),
            free: Vec::new(),
        }
    }

    /// What the first line that matches says.
    fn line(&mut self, from: PeerId, type_id: u8) -> Option<NetAct> {
        let count = &mut self.counts.get_mut(from as usize)?[type_id as usize];
        *count += 1;
        let n = *count;
        self.plan
            .lines
            .iter()
            .find(|l| {
                PeerId::from(l.end) == from && l.type_id == type_id && (l.nth == 0 || l.nth == n)
            })
            .map(|l| l.act)
    }

    /// The due numbers of the message that is sent now.
    fn judge(&mut self, from: PeerId, type_id: u8) -> (Option<u64>, Option<u64>) {
        let i = self.sent;
        let act = self.line(from, type_id);
        let draws = self.plan.chaos.map(|c| (c, [(); 4].map(|()| self.draws.draw())));
        match (act, draws) {
            (Some(NetAct::Drop), _) => (None, None),
            (Some(NetAct::Hold(lag)), _) => (Some(i + u64::from(lag)), None),
            (Some(NetAct::Copy(lag)), _) => (Some(i), Some(i + u64::from(lag))),
            (None, None) => (Some(i), None),
            (None, Some((chaos, [a, b, c, d]))) => {
                if a % 1000 < chaos.drop.into() {
                    return (None, None);
                }
                let lag = 1 + d % 3;
                let first = if c % 1000 < chaos.hold.into() { i + lag } else { i };
                (Some(first), (b % 1000 < chaos.repeat.into()).then_some(first + lag))
            }
        }
    }

    fn store(&mut self, from: PeerId, bytes: &[u8], deliveries: u8) -> u32 {
        let at = self.free.pop().unwrap_or_else(|| {
            self.slots.push(Slot { from, deliveries, bytes: Vec::new() });
            self.slots.len() as u32 - 1
        });
        let slot = &mut self.slots[at as usize];
        slot.from = from;
        slot.deliveries = deliveries;
        slot.bytes.clear();
        slot.bytes.extend_from_slice(bytes);
        at
    }
}

impl Net for MemoryNet {
    fn send(&mut self, from: PeerId, to: PeerId, bytes: &[u8]) {
        self.sent += 1;
        let i = self.sent;
        let (first, second) = if self.plan.lines.is_empty() && self.plan.chaos.is_none() {
            (Some(i), None)
        } else {
            self.judge(from, bytes[0])
        };
        let deliveries = u8::from(first.is_some()) + u8::from(second.is_some());
        if deliveries == 0 || to as usize >= self.boxes.len() {
            return;
        }
        let slot = self.store(from, bytes, deliveries);
        let mailbox = &mut self.boxes[to as usize];
        match first {
            Some(due) if due == i => mailbox.prompt.push_back((i, slot)),
            Some(due) => mailbox.late.push(Reverse((due, i, false, slot))),
            None => {}
        }
        if let Some(due) = second {
            mailbox.late.push(Reverse((due, i, true, slot)));
        }
    }

    fn take(&mut self, at: PeerId) -> Option<(PeerId, &[u8])> {
        loop {
            let (i, at) = self.boxes[at as usize].pop(self.sent)?;
            let slot = &mut self.slots[at as usize];
            slot.deliveries -= 1;
            if slot.deliveries == 0 {
                self.free.push(at);
            }
            if self.sent - i <= LAST_AGE {
                let slot = &self.slots[at as usize];
                return Some((slot.from, &slot.bytes));
            }
        }
    }
}
