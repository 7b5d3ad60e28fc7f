//! The fourteen models.

use std::collections::VecDeque;

use crate::types::{DataType, FaultCode};

#[derive(Clone, Copy, PartialEq, Eq, Debug)]
#[repr(u8)]
pub enum Kind {
    Const,
    Ramp,
    Counter,
    Gain,
    Sum,
    Integrator,
    Lag,
    Delay,
    Limiter,
    Deadband,
    Divider,
    Oscillator,
    Tank,
    Switch,
}

/// Word, kind, number of parameters, least and most inputs, outputs.
const TABLE: [(&str, Kind, usize, usize, usize, usize); 14] = [
    ("const", Kind::Const, 1, 0, 0, 1),
    ("ramp", Kind::Ramp, 2, 0, 0, 1),
    ("counter", Kind::Counter, 1, 0, 0, 1),
    ("gain", Kind::Gain, 1, 1, 1, 1),
    ("sum", Kind::Sum, 0, 1, 8, 1),
    ("integrator", Kind::Integrator, 2, 1, 1, 1),
    ("lag", Kind::Lag, 2, 1, 1, 1),
    ("delay", Kind::Delay, 2, 1, 1, 1),
    ("limiter", Kind::Limiter, 2, 1, 1, 1),
    ("deadband", Kind::Deadband, 1, 1, 1, 1),
    ("divider", Kind::Divider, 1, 1, 1, 1),
    ("oscillator", Kind::Oscillator, 4, 0, 0, 2),
    ("tank", Kind::Tank, 3, 1, 1, 2),
    ("switch", Kind::Switch, 1, 3, 3, 1),
];

impl Kind {
    pub fn from_word(word: &str) -> Option<Kind> {
        TABLE.iter().find(|row| row.0 == word).map(|row| row.1)
    }

    pub fn good_ports(self, inputs: usize, outputs: usize) -> bool {
        let (_, _, _, least, most, outs) = TABLE[self as usize];
        (least..=most).contains(&inputs) && outputs == outs
    }

    pub fn good_parameters(self, p: &[i64]) -> bool {
        p.len() == TABLE[self as usize].2
            && match self {
                Kind::Counter => p[0] >= 1,
                Kind::Lag => (0..=65_536).contains(&p[1]),
                Kind::Delay => (1..=64).contains(&p[1]),
                Kind::Limiter => p[0] <= p[1],
                Kind::Deadband => p[0] >= 0,
                Kind::Tank => p[0] >= 0 && (0..=65_536).contains(&p[2]),
                _ => true,
            }
    }

    /// A micro step on the same inputs again changes nothing.
    fn settles_at_once(self) -> bool {
        !matches!(
            self,
            Kind::Ramp
                | Kind::Counter
                | Kind::Integrator
                | Kind::Lag
                | Kind::Delay
                | Kind::Oscillator
                | Kind::Tank
        )
    }
}

/// a divided by 65,536, rounded down.
fn q(a: i128) -> i128 {
    a >> 16
}

fn narrow(value: i128) -> Result<i64, FaultCode> {
    i64::try_from(value).map_err(|_| FaultCode::ModelOverflow)
}

fn floor_div(a: i128, b: i128) -> i128 {
    let d = a / b;
    if a % b != 0 && (a < 0) != (b < 0) { d - 1 } else { d }
}

pub struct Model {
    kind: Kind,
    parameters: Vec<i64>,
    types: Vec<DataType>,
    y: i64,
    /// The oscillator's second value.
    v: i64,
    /// The values in a delay.
    line: VecDeque<i64>,
}

impl Model {
    /// The parameters are good for the kind.
    pub fn new(kind: Kind, parameters: &[i64], types: Vec<DataType>) -> Model {
        let parameters = parameters.to_vec();
        let mut model = Model { kind, parameters, types, y: 0, v: 0, line: VecDeque::new() };
        model.restart();
        model
    }

    pub fn restart(&mut self) {
        let p = &self.parameters;
        self.y = match self.kind {
            Kind::Const
            | Kind::Ramp
            | Kind::Integrator
            | Kind::Lag
            | Kind::Tank
            | Kind::Oscillator => p[0],
            Kind::Limiter => 0.clamp(p[0], p[1]),
            _ => 0,
        };
        self.v = if self.kind == Kind::Oscillator { p[1] } else { 0 };
        if self.kind == Kind::Delay {
            self.line.clear();
            self.line.extend(std::iter::repeat_n(p[0], p[1] as usize));
        }
    }

    pub fn parameters(&self) -> &[i64] {
        &self.parameters
    }

    /// False where the kind refuses the changed list; then nothing changes.
    pub fn set(&mut self, index: usize, value: i64) -> bool {
        let old = std::mem::replace(&mut self.parameters[index], value);
        if !self.kind.good_parameters(&self.parameters) {
            self.parameters[index] = old;
            return false;
        }
        self.restart();
        true
    }

    pub fn set_all(&mut self, parameters: &[i64]) {
        self.parameters.clear();
        self.parameters.extend_from_slice(parameters);
        self.restart();
    }

    /// After a fault the state is as before.
    pub fn step(&mut self, u: &[i128], micro: u32) -> Result<(), FaultCode> {
        if self.kind == Kind::Delay {
            return self.step_delay(u[0], micro as usize);
        }
        let before = (self.y, self.v);
        let times = if self.kind.settles_at_once() { 1 } else { micro };
        let result = (0..times).try_for_each(|_| self.micro(u)).and_then(|()| self.check());
        if result.is_err() {
            (self.y, self.v) = before;
        }
        result
    }

    fn step_delay(&mut self, u: i128, micro: usize) -> Result<(), FaultCode> {
        let u = narrow(u)?;
        let first = self.line.get(micro).copied().unwrap_or(u);
        if !self.types[0].fits(first.into()) {
            return Err(FaultCode::OutOfRange);
        }
        for _ in 0..micro.min(self.line.len()) {
            self.line.pop_front();
            self.line.push_back(u);
        }
        Ok(())
    }

    fn micro(&mut self, u: &[i128]) -> Result<(), FaultCode> {
        let p = |i: usize| i128::from(self.parameters[i]);
        let y = i128::from(self.y);
        let next = match self.kind {
            Kind::Const | Kind::Delay => y,
            Kind::Ramp => y + p(1),
            Kind::Counter => {
                let (y, m) = (self.y as u64 + 1, self.parameters[0] as u64);
                i128::from(if y == m { 0 } else { y })
            }
            Kind::Gain => q(p(0) * u[0]),
            Kind::Sum => u.iter().sum(),
            Kind::Integrator => y + q(p(1) * u[0]),
            Kind::Lag => y + q(p(1) * (u[0] - y)),
            Kind::Limiter => u[0].clamp(p(0), p(1)),
            Kind::Deadband => {
                let w = p(0);
                u[0] - u[0].clamp(-w, w)
            }
            Kind::Divider if u[0] == 0 => return Err(FaultCode::DivideByZero),
            Kind::Divider => floor_div(p(0) * 65_536, u[0]),
            Kind::Oscillator => {
                let x = y + q(p(2) * i128::from(self.v));
                narrow(x)?;
                self.v = narrow(i128::from(self.v) - q(p(3) * x))?;
                x
            }
            Kind::Tank => (y + q(p(1) * u[0]) - q(p(2) * y)).max(0),
            Kind::Switch => u[if u[0] >= p(0) { 1 } else { 2 }],
        };
        self.y = narrow(next)?;
        Ok(())
    }

    fn check(&self) -> Result<(), FaultCode> {
        (0..self.types.len()).try_for_each(|port| self.output(port).map(|_| ()))
    }

    pub fn output(&self, port: usize) -> Result<i128, FaultCode> {
        let y = i128::from(self.y);
        let value = match (self.kind, port) {
            (Kind::Delay, _) => i128::from(self.line[0]),
            (Kind::Oscillator, 1) => i128::from(self.v),
            (Kind::Tank, 1) => q(i128::from(self.parameters[2]) * y),
            _ => y,
        };
        if self.types[port].fits(value) { Ok(value) } else { Err(FaultCode::OutOfRange) }
    }

    /// All outputs in port order, in the first places of an array.
    pub fn outputs(&self) -> Result<[i128; 2], FaultCode> {
        let mut values = [0; 2];
        for (port, value) in values.iter_mut().take(self.types.len()).enumerate() {
            *value = self.output(port)?;
        }
        Ok(values)
    }
}
