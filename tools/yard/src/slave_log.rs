//! The log entries of a slave.

use std::collections::VecDeque;

use crate::types::ErrorCode;

const KEPT: usize = 64;
const CATEGORIES: usize = 3;

#[derive(Clone, Copy)]
pub struct LogLine {
    pub number: u32,
    pub category: u8,
    pub level: u8,
    pub code: u8,
    pub step: u32,
}

#[derive(Default)]
struct Category {
    level: u8,
    send: bool,
    next: u32,
    ring: VecDeque<LogLine>,
}

#[derive(Default)]
pub struct SlaveLog {
    categories: [Category; CATEGORIES],
}

impl SlaveLog {
    pub fn configure(&mut self, category: u8, level: u8, mode: u8) -> Result<(), ErrorCode> {
        if category as usize > CATEGORIES || level > 3 || mode > 1 {
            return Err(ErrorCode::ValueRange);
        }
        for (i, c) in self.categories.iter_mut().enumerate() {
            if category == 0 || i == category as usize - 1 {
                (c.level, c.send) = (level, mode == 1);
            }
        }
        Ok(())
    }

    /// The line that is to be sent, where one is.
    pub fn note(&mut self, category: u8, level: u8, code: u8, step: u32) -> Option<LogLine> {
        let c = &mut self.categories[category as usize - 1];
        if level > c.level {
            return None;
        }
        let line = LogLine { number: c.next, category, level, code, step };
        c.next = c.next.saturating_add(1);
        if c.send {
            return Some(line);
        }
        if c.ring.len() == KEPT {
            c.ring.pop_front();
        }
        c.ring.push_back(line);
        None
    }

    /// Takes out and appends the first entries of a category.
    pub fn fetch(&mut self, category: u8, most: u8, out: &mut Vec<u8>) {
        let ring = &mut self.categories[category as usize - 1].ring;
        let count = ring.len().min(most.into());
        for line in ring.drain(..count) {
            out.extend_from_slice(&line.number.to_le_bytes());
            out.extend_from_slice(&[line.category, line.level, line.code]);
            out.extend_from_slice(&line.step.to_le_bytes());
        }
    }
}
