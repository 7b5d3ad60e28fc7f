//! The table of rows, and the lockstep reference that fills one.

use std::io::{self, Write};

use crate::models::Model;
use crate::scenario::Scenario;
use crate::types::{DataType, FaultCode};

/// Rows of values, 64 bits each; the column's type tells their sign.
pub struct Rows {
    kinds: Vec<DataType>,
    bits: Vec<u64>,
    count: u32,
}

impl Rows {
    /// A table with room for all rows of the scenario, none of them counted.
    pub fn of(sc: &Scenario) -> Rows {
        let kinds = sc.row_types();
        let bits = vec![0; kinds.len() * sc.total_rows() as usize];
        Rows { kinds, bits, count: 0 }
    }

    pub fn count(&self) -> u32 {
        self.count
    }

    /// Counts one row more, whose values were put.
    pub fn grow(&mut self) {
        self.count += 1;
    }

    pub fn put(&mut self, row: u32, column: usize, bits: u64) {
        let at = row as usize * self.kinds.len() + column;
        self.bits[at] = bits;
    }

    pub fn get(&self, row: u32, column: usize) -> i128 {
        self.kinds[column].value(self.bits[row as usize * self.kinds.len() + column])
    }

    pub fn sum(&self) -> i128 {
        self.values().sum()
    }

    fn values(&self) -> impl Iterator<Item = i128> {
        let all = &self.bits[..self.count as usize * self.kinds.len()];
        all.iter().zip(self.kinds.iter().cycle()).map(|(bits, kind)| kind.value(*bits))
    }

    pub fn print(&self, out: &mut impl Write) -> io::Result<()> {
        let whole = &self.bits[..self.count as usize * self.kinds.len()];
        for (k, row) in whole.chunks_exact(self.kinds.len().max(1)).enumerate() {
            put_number(out, k as u64, false)?;
            for (bits, kind) in row.iter().zip(&self.kinds) {
                out.write_all(b" ")?;
                let negative = kind.signed() && (*bits as i64) < 0;
                put_number(out, if negative { bits.wrapping_neg() } else { *bits }, negative)?;
            }
            out.write_all(b"\n")?;
        }
        Ok(())
    }
}

fn put_number(out: &mut impl Write, mut n: u64, negative: bool) -> io::Result<()> {
    let mut room = [0; 21];
    let mut at = room.len();
    loop {
        at -= 1;
        room[at] = b'0' + (n % 10) as u8;
        n /= 10;
        if n == 0 {
            break;
        }
    }
    if negative {
        at -= 1;
        room[at] = b'-';
    }
    out.write_all(&room[at..])
}

pub struct RefFault {
    pub slave: usize,
    pub run: u32,
    pub step: u32,
    pub code: FaultCode,
}

/// The lockstep fold: every slave steps at once on the row before.
pub fn reference(sc: &Scenario) -> (Rows, Option<RefFault>) {
    let mut rows = Rows::of(sc);
    let mut columns = vec![0];
    for d in &sc.slaves {
        columns.push(columns[columns.len() - 1] + d.outputs.len());
    }
    // Each slave's inputs: the column that is wired to it and the interval.
    let mut sources: Vec<Vec<Option<(usize, u32)>>> =
        sc.slaves.iter().map(|d| vec![None; d.inputs.len()]).collect();
    for w in &sc.wires {
        let column = columns[w.from as usize - 1] + w.out as usize;
        sources[w.to as usize - 1][w.into as usize] = Some((column, sc.interval(w.from, w.to)));
    }
    let mut models: Vec<Model> =
        sc.slaves.iter().map(|d| Model::new(d.kind, &d.parameters, d.output_types())).collect();
    for set in &sc.settings {
        models[set.slave as usize - 1].set(set.index as usize, set.value);
    }
    for run in 1..=sc.runs {
        models.iter_mut().for_each(Model::restart);
        for r in sc.reruns.iter().filter(|r| r.run == run) {
            models[r.set.slave as usize - 1].set(r.set.index as usize, r.set.value);
        }
        let first = rows.count();
        for step in 0..=sc.steps {
            let fault = |slave, code| Some(RefFault { slave, run, step, code });
            if step > 0 {
                let mut inputs = [0i128; 8];
                for (s, model) in models.iter_mut().enumerate() {
                    let wired = &sources[s];
                    for (input, source) in inputs.iter_mut().zip(wired) {
                        *input = source.map_or(0, |(column, q)| {
                            rows.get(first + q * ((step - 1) / q), column)
                        });
                    }
                    if let Err(code) = model.step(&inputs[..wired.len()], sc.micro) {
                        return (rows, fault(s + 1, code));
                    }
                }
            }
            let row = first + step;
            for (s, model) in models.iter().enumerate() {
                match model.outputs() {
                    Ok(values) => {
                        for (column, value) in (columns[s]..columns[s + 1]).zip(values) {
                            rows.put(row, column, value as u64);
                        }
                    }
                    Err(code) => return (rows, fault(s + 1, code)),
                }
            }
            rows.grow();
        }
    }
    (rows, None)
}
