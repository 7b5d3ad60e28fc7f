//! Scenarios, judged line by line.

use crate::models::Kind;
use crate::types::{Address, DataType, TCP, UDP};
use crate::words;

#[derive(Clone, Debug)]
pub struct Port {
    pub vr: u64,
    pub kind: DataType,
}

#[derive(Clone, Debug)]
pub struct SlaveDesc {
    pub name: String,
    pub uuid: u128,
    pub address: Address,
    pub kind: Kind,
    pub parameters: Vec<i64>,
    pub busy: u32,
    pub heartbeat: u32,
    pub numerator: u32,
    pub denominator: u32,
    pub inputs: Vec<Port>,
    pub outputs: Vec<Port>,
}

impl SlaveDesc {
    pub fn output_types(&self) -> Vec<DataType> {
        self.outputs.iter().map(|p| p.kind).collect()
    }
}

#[derive(Clone, Copy, Debug)]
pub struct Limits {
    pub turn_limit: u32,
    pub tries: u32,
    pub watch_turns: u32,
    pub state_limit: u32,
    pub retry_turns: u32,
    pub data_turns: u32,
    pub step_tries: u32,
}

#[derive(Clone, Copy, Debug)]
pub struct Wire {
    pub from: u8,
    pub out: u8,
    pub to: u8,
    pub into: u8,
}

#[derive(Clone, Copy, Debug)]
pub struct Setting {
    pub slave: u8,
    pub index: u8,
    pub value: i64,
}

#[derive(Clone, Copy, Debug)]
pub struct Rerun {
    pub run: u32,
    pub set: Setting,
}

#[derive(Clone, Copy, Debug)]
pub struct Every {
    pub from: u8,
    pub to: u8,
    pub q: u32,
}

#[derive(Clone, Copy, Debug)]
pub enum NetAct {
    Drop,
    Copy(u32),
    Hold(u32),
}

#[derive(Clone, Copy, Debug)]
pub struct NetLine {
    pub end: u8,
    pub type_id: u8,
    pub nth: u32,
    pub act: NetAct,
}

#[derive(Clone, Copy, Debug)]
pub struct Chaos {
    pub start: u64,
    pub drop: u32,
    pub repeat: u32,
    pub hold: u32,
}

#[derive(Clone, Debug, Default)]
pub struct NetPlan {
    pub lines: Vec<NetLine>,
    pub chaos: Option<Chaos>,
}

#[derive(Clone, Debug)]
pub struct Scenario {
    pub steps: u32,
    pub runs: u32,
    pub micro: u32,
    pub protocol: u8,
    pub master: Address,
    pub limits: Limits,
    pub slaves: Vec<SlaveDesc>,
    pub wires: Vec<Wire>,
    pub settings: Vec<Setting>,
    pub reruns: Vec<Rerun>,
    pub every: Vec<Every>,
    pub net: NetPlan,
}

impl Scenario {
    pub fn interval(&self, from: u8, to: u8) -> u32 {
        self.every.iter().find(|e| e.from == from && e.to == to).map_or(1, |e| e.q)
    }

    pub fn total_rows(&self) -> u32 {
        (self.steps + 1) * self.runs
    }

    /// The master's address and then each slave's.
    pub fn addresses(&self) -> impl Iterator<Item = Address> {
        std::iter::once(self.master).chain(self.slaves.iter().map(|d| d.address))
    }

    /// The types of a row's values.
    pub fn row_types(&self) -> Vec<DataType> {
        self.slaves.iter().flat_map(|d| d.outputs.iter().map(|p| p.kind)).collect()
    }
}

#[derive(Clone, Copy, PartialEq, Eq, Debug)]
pub enum TextWhy {
    NotUtf8,
    UnknownKey,
    Order,
    Missing,
    Ports,
    Limit,
    Repeated,
    Words,
    BadName,
    BadNumber,
    BadUuid,
    UnknownModel,
    UnsupportedType,
    UnknownSlave,
    UnknownPort,
    SameAddress,
    Parameters,
    TypeMismatch,
    TwoWires,
    NoWire,
}

impl TextWhy {
    pub fn word(self) -> &'static str {
        match self {
            TextWhy::NotUtf8 => "NOT_UTF8",
            TextWhy::UnknownKey => "UNKNOWN_KEY",
            TextWhy::Order => "ORDER",
            TextWhy::Missing => "MISSING",
            TextWhy::Ports => "PORTS",
            TextWhy::Limit => "LIMIT",
            TextWhy::Repeated => "REPEATED",
            TextWhy::Words => "WORDS",
            TextWhy::BadName => "BAD_NAME",
            TextWhy::BadNumber => "BAD_NUMBER",
            TextWhy::BadUuid => "BAD_UUID",
            TextWhy::UnknownModel => "UNKNOWN_MODEL",
            TextWhy::UnsupportedType => "UNSUPPORTED_TYPE",
            TextWhy::UnknownSlave => "UNKNOWN_SLAVE",
            TextWhy::UnknownPort => "UNKNOWN_PORT",
            TextWhy::SameAddress => "SAME_ADDRESS",
            TextWhy::Parameters => "PARAMETERS",
            TextWhy::TypeMismatch => "TYPE_MISMATCH",
            TextWhy::TwoWires => "TWO_WIRES",
            TextWhy::NoWire => "NO_WIRE",
        }
    }
}

pub struct TextFault {
    pub line: usize,
    pub why: &'static str,
}

type Judged<T> = Result<T, TextWhy>;

#[derive(Clone, Copy, PartialEq, Eq, PartialOrd)]
enum Section {
    Head,
    Slaves,
    Links,
}

#[derive(Clone, Copy, PartialEq, Eq)]
#[repr(u8)]
enum Key {
    Steps,
    Micro,
    Runs,
    TurnLimit,
    Tries,
    WatchTurns,
    StateLimit,
    RetryTurns,
    DataTurns,
    StepTries,
    Master,
    Protocol,
    Slave,
    Uuid,
    Address,
    Model,
    Busy,
    Heartbeat,
    Resolution,
    Input,
    Output,
    Wire,
    Set,
    Drop,
    Copy,
    Hold,
    Chaos,
    Every,
    RerunSet,
}

/// Word, key, section, whether it comes once, number of words.
const KEYS: [(&str, Key, Section, bool, usize); 29] = [
    ("steps", Key::Steps, Section::Head, true, 2),
    ("micro", Key::Micro, Section::Head, true, 2),
    ("runs", Key::Runs, Section::Head, true, 2),
    ("turn_limit", Key::TurnLimit, Section::Head, true, 2),
    ("tries", Key::Tries, Section::Head, true, 2),
    ("watch_turns", Key::WatchTurns, Section::Head, true, 2),
    ("state_limit", Key::StateLimit, Section::Head, true, 2),
    ("retry_turns", Key::RetryTurns, Section::Head, true, 2),
    ("data_turns", Key::DataTurns, Section::Head, true, 2),
    ("step_tries", Key::StepTries, Section::Head, true, 2),
    ("master", Key::Master, Section::Head, true, 3),
    ("protocol", Key::Protocol, Section::Head, true, 2),
    ("slave", Key::Slave, Section::Slaves, false, 2),
    ("uuid", Key::Uuid, Section::Slaves, true, 2),
    ("address", Key::Address, Section::Slaves, true, 3),
    ("model", Key::Model, Section::Slaves, true, 0),
    ("busy", Key::Busy, Section::Slaves, true, 2),
    ("heartbeat", Key::Heartbeat, Section::Slaves, true, 2),
    ("resolution", Key::Resolution, Section::Slaves, true, 3),
    ("input", Key::Input, Section::Slaves, false, 3),
    ("output", Key::Output, Section::Slaves, false, 3),
    ("wire", Key::Wire, Section::Links, false, 5),
    ("set", Key::Set, Section::Links, false, 4),
    ("drop", Key::Drop, Section::Links, false, 4),
    ("copy", Key::Copy, Section::Links, false, 5),
    ("hold", Key::Hold, Section::Links, false, 5),
    ("chaos", Key::Chaos, Section::Links, true, 5),
    ("every", Key::Every, Section::Links, false, 4),
    ("rerun_set", Key::RerunSet, Section::Links, false, 5),
];

const MOST_SLAVES: usize = 16;
const MOST_PORTS: usize = 8;
const MOST_NET_LINES: usize = 64;
const MOST_SLAVE_STEPS: u64 = 200_000;
const MOST_VALUES: u64 = 1_000_000;

fn name(word: &str) -> Judged<&str> {
    if words::is_name(word) { Ok(word) } else { Err(TextWhy::BadName) }
}

fn number(word: &str, low: u64, high: u64) -> Judged<u64> {
    let n = words::number(word, false).ok_or(TextWhy::BadNumber)?;
    if (i128::from(low)..=i128::from(high)).contains(&n) {
        Ok(n as u64)
    } else {
        Err(TextWhy::Limit)
    }
}

fn small(word: &str, low: u32, high: u32) -> Judged<u32> {
    Ok(number(word, low.into(), high.into())? as u32)
}

fn int64(word: &str) -> Judged<i64> {
    let n = words::number(word, true).ok_or(TextWhy::BadNumber)?;
    i64::try_from(n).map_err(|_| TextWhy::Limit)
}

fn address(ip: &str, port: &str) -> Judged<Address> {
    let ip = words::ip(ip).ok_or(TextWhy::BadNumber)?;
    Ok(Address { ip, port: small(port, 1, 65_535)? as u16 })
}

/// A port number or an index of a parameter.
fn place(word: &str, count: usize) -> Judged<u8> {
    let n = words::number(word, false).ok_or(TextWhy::BadNumber)?;
    if n < count as i128 { Ok(n as u8) } else { Err(TextWhy::UnknownPort) }
}

/// The partly filled value; `line` judges one line, `end_*` the end of the text.
struct Reader {
    section: Section,
    sc: Scenario,
    /// The keys of this head or block (and chaos) that come once and came.
    seen: u32,
    open: bool,
    /// Each slave's parameters after the settings so far.
    set_so_far: Vec<Vec<i64>>,
}

impl Reader {
    fn new() -> Reader {
        Reader {
            section: Section::Head,
            sc: Scenario {
                steps: 0,
                runs: 1,
                micro: 1,
                protocol: UDP,
                // Port 0 is no address that a text can name.
                master: Address::default(),
                limits: Limits {
                    turn_limit: 50,
                    tries: 4,
                    watch_turns: 20,
                    state_limit: 200,
                    retry_turns: 20,
                    data_turns: 20,
                    step_tries: 3,
                },
                slaves: Vec::new(),
                wires: Vec::new(),
                settings: Vec::new(),
                reruns: Vec::new(),
                every: Vec::new(),
                net: NetPlan::default(),
            },
            seen: 0,
            open: false,
            set_so_far: Vec::new(),
        }
    }

    fn has(&self, key: Key) -> bool {
        self.seen >> key as u8 & 1 == 1
    }

    fn block(&mut self) -> &mut SlaveDesc {
        self.sc.slaves.last_mut().expect("an open block")
    }

    fn close_head(&mut self) -> Judged<()> {
        if !self.has(Key::Steps) || !self.has(Key::Master) {
            return Err(TextWhy::Missing);
        }
        self.seen = 0;
        Ok(())
    }

    fn close_block(&mut self) -> Judged<()> {
        let d = self.sc.slaves.last().filter(|_| self.open).ok_or(TextWhy::Missing)?;
        let whole = [Key::Uuid, Key::Address, Key::Model].iter().all(|k| self.has(*k));
        if !whole || d.outputs.is_empty() {
            return Err(TextWhy::Missing);
        }
        if !d.kind.good_ports(d.inputs.len(), d.outputs.len()) {
            return Err(TextWhy::Ports);
        }
        self.open = false;
        self.seen = 0;
        Ok(())
    }

    fn close_slaves(&mut self) -> Judged<()> {
        self.close_block()?;
        let sc = &self.sc;
        let (slaves, steps, runs) =
            (sc.slaves.len() as u64, u64::from(sc.steps), u64::from(sc.runs));
        let values: u64 = sc.slaves.iter().map(|d| d.outputs.len() as u64).sum();
        if slaves * steps * runs > MOST_SLAVE_STEPS || values * (steps + 1) * runs > MOST_VALUES {
            return Err(TextWhy::Limit);
        }
        self.set_so_far = sc.slaves.iter().map(|d| d.parameters.clone()).collect();
        Ok(())
    }

    fn closes(&mut self, key: Key, section: Section) -> Judged<()> {
        if self.section == Section::Head && section > Section::Head {
            self.close_head()?;
            self.section = Section::Slaves;
        }
        if section == Section::Slaves {
            if key == Key::Slave {
                if self.open {
                    self.close_block()?;
                }
            } else if !self.open {
                return Err(TextWhy::Missing);
            }
        }
        if section == Section::Links && self.section == Section::Slaves {
            self.close_slaves()?;
            self.section = Section::Links;
        }
        Ok(())
    }

    fn end_scenario(mut self) -> Judged<Scenario> {
        match self.section {
            Section::Head => {
                self.close_head()?;
                return Err(TextWhy::Missing);
            }
            Section::Slaves => self.close_slaves()?,
            Section::Links => {}
        }
        Ok(self.sc)
    }

    fn line(&mut self, first: &str, rest: &[&str]) -> Judged<()> {
        let &(_, key, section, once, count) =
            KEYS.iter().find(|k| k.0 == first).ok_or(TextWhy::UnknownKey)?;
        if section < self.section {
            return Err(TextWhy::Order);
        }
        self.closes(key, section)?;
        if once && self.has(key) {
            return Err(TextWhy::Repeated);
        }
        if if key == Key::Model { rest.is_empty() } else { rest.len() + 1 != count } {
            return Err(TextWhy::Words);
        }
        match key {
            Key::Steps => self.sc.steps = small(rest[0], 0, 100_000)?,
            Key::Micro => self.sc.micro = small(rest[0], 1, 1000)?,
            Key::Runs => self.sc.runs = small(rest[0], 1, 100)?,
            Key::TurnLimit => self.sc.limits.turn_limit = small(rest[0], 1, 1000)?,
            Key::Tries => self.sc.limits.tries = small(rest[0], 1, 20)?,
            Key::WatchTurns => self.sc.limits.watch_turns = small(rest[0], 1, 1000)?,
            Key::StateLimit => self.sc.limits.state_limit = small(rest[0], 1, 1000)?,
            Key::RetryTurns => self.sc.limits.retry_turns = small(rest[0], 1, 1000)?,
            Key::DataTurns => self.sc.limits.data_turns = small(rest[0], 1, 1000)?,
            Key::StepTries => self.sc.limits.step_tries = small(rest[0], 2, 20)?,
            Key::Master => self.sc.master = address(rest[0], rest[1])?,
            Key::Protocol => {
                self.sc.protocol = match rest[0] {
                    "udp" => UDP,
                    "tcp" => TCP,
                    _ => return Err(TextWhy::BadNumber),
                }
            }
            Key::Slave => self.slave(rest[0])?,
            Key::Uuid => self.block().uuid = words::uuid(rest[0]).ok_or(TextWhy::BadUuid)?,
            Key::Address => {
                let address = address(rest[0], rest[1])?;
                if self.sc.addresses().any(|a| a == address) {
                    return Err(TextWhy::SameAddress);
                }
                self.block().address = address;
            }
            Key::Model => {
                let kind = Kind::from_word(rest[0]).ok_or(TextWhy::UnknownModel)?;
                let parameters = rest[1..].iter().map(|w| int64(w)).collect::<Judged<Vec<_>>>()?;
                if !kind.good_parameters(&parameters) {
                    return Err(TextWhy::Parameters);
                }
                let d = self.block();
                d.kind = kind;
                d.parameters = parameters;
            }
            Key::Busy => self.block().busy = small(rest[0], 0, 50)?,
            Key::Heartbeat => self.block().heartbeat = small(rest[0], 0, 100_000)?,
            Key::Resolution => {
                let (n, d) = (small(rest[0], 1, u32::MAX)?, small(rest[1], 1, u32::MAX)?);
                (self.block().numerator, self.block().denominator) = (n, d);
            }
            Key::Input => port(&mut self.block().inputs, rest)?,
            Key::Output => port(&mut self.block().outputs, rest)?,
            Key::Wire => self.wire(rest)?,
            Key::Set => {
                let set = self.setting(rest)?;
                if !self.sc.reruns.is_empty() {
                    return Err(TextWhy::Order);
                }
                self.check_setting(set)?;
                self.sc.settings.push(set);
            }
            Key::RerunSet => {
                let run = small(rest[0], 2, self.sc.runs)?;
                let set = self.setting(&rest[1..])?;
                if self.sc.reruns.last().is_some_and(|r| run < r.run) {
                    return Err(TextWhy::Order);
                }
                self.check_setting(set)?;
                self.sc.reruns.push(Rerun { run, set });
            }
            Key::Every => {
                let (from, to) = (self.known(rest[0])?, self.known(rest[1])?);
                let q = small(rest[2], 1, 1000)?;
                if self.sc.every.iter().any(|e| e.from == from && e.to == to) {
                    return Err(TextWhy::Repeated);
                }
                if !self.sc.wires.iter().any(|w| w.from == from && w.to == to) {
                    return Err(TextWhy::NoWire);
                }
                self.sc.every.push(Every { from, to, q });
            }
            Key::Drop | Key::Copy | Key::Hold => self.net_line(key, rest)?,
            Key::Chaos => {
                self.sc.net.chaos = Some(Chaos {
                    start: number(rest[0], 0, u64::MAX)?,
                    drop: small(rest[1], 0, 1000)?,
                    repeat: small(rest[2], 0, 1000)?,
                    hold: small(rest[3], 0, 1000)?,
                });
            }
        }
        if once {
            self.seen |= 1 << key as u8;
        }
        Ok(())
    }

    fn slave(&mut self, word: &str) -> Judged<()> {
        let name = name(word)?;
        if self.sc.slaves.iter().any(|d| d.name == name) {
            return Err(TextWhy::Repeated);
        }
        if self.sc.slaves.len() >= MOST_SLAVES {
            return Err(TextWhy::Limit);
        }
        self.sc.slaves.push(SlaveDesc {
            name: name.to_owned(),
            uuid: 0,
            address: Address::default(),
            kind: Kind::Const,
            parameters: Vec::new(),
            busy: 0,
            heartbeat: 0,
            numerator: 1,
            denominator: 1000,
            inputs: Vec::new(),
            outputs: Vec::new(),
        });
        self.open = true;
        Ok(())
    }

    /// The number of the slave with this name.
    fn known(&self, word: &str) -> Judged<u8> {
        let name = name(word)?;
        let at = self.sc.slaves.iter().position(|d| d.name == name);
        at.map(|i| i as u8 + 1).ok_or(TextWhy::UnknownSlave)
    }

    fn desc(&self, slave: u8) -> &SlaveDesc {
        &self.sc.slaves[slave as usize - 1]
    }

    fn wire(&mut self, rest: &[&str]) -> Judged<()> {
        let from = self.known(rest[0])?;
        let out = place(rest[1], self.desc(from).outputs.len())?;
        let to = self.known(rest[2])?;
        let into = place(rest[3], self.desc(to).inputs.len())?;
        let source = self.desc(from).outputs[out as usize].kind;
        if source != self.desc(to).inputs[into as usize].kind {
            return Err(TextWhy::TypeMismatch);
        }
        if self.sc.wires.iter().any(|w| w.to == to && w.into == into) {
            return Err(TextWhy::TwoWires);
        }
        self.sc.wires.push(Wire { from, out, to, into });
        Ok(())
    }

    fn setting(&self, rest: &[&str]) -> Judged<Setting> {
        let slave = self.known(rest[0])?;
        let index = place(rest[1], self.desc(slave).parameters.len())?;
        Ok(Setting { slave, index, value: int64(rest[2])? })
    }

    fn check_setting(&mut self, set: Setting) -> Judged<()> {
        let kind = self.desc(set.slave).kind;
        let values = &mut self.set_so_far[set.slave as usize - 1];
        values[set.index as usize] = set.value;
        if kind.good_parameters(values) { Ok(()) } else { Err(TextWhy::Parameters) }
    }

    fn net_line(&mut self, key: Key, rest: &[&str]) -> Judged<()> {
        let end = words::number(rest[0], false).ok_or(TextWhy::BadNumber)?;
        if end > self.sc.slaves.len() as i128 {
            return Err(TextWhy::UnknownSlave);
        }
        let mut type_id = Vec::new();
        if rest[1].len() != 2 || words::hex(rest[1], &mut type_id).is_none() {
            return Err(TextWhy::BadNumber);
        }
        let nth = small(rest[2], 0, 1_000_000)?;
        let act = match key {
            Key::Drop => NetAct::Drop,
            Key::Copy => NetAct::Copy(small(rest[3], 1, 1000)?),
            _ => NetAct::Hold(small(rest[3], 1, 1000)?),
        };
        if self.sc.net.lines.len() >= MOST_NET_LINES {
            return Err(TextWhy::Limit);
        }
        self.sc.net.lines.push(NetLine { end: end as u8, type_id: type_id[0], nth, act });
        Ok(())
    }
}

fn port(ports: &mut Vec<Port>, rest: &[&str]) -> Judged<()> {
    let vr = number(rest[0], 0, u64::MAX)?;
    let kind = DataType::from_word(rest[1]).ok_or(TextWhy::UnsupportedType)?;
    if ports.iter().any(|p| p.vr == vr) {
        return Err(TextWhy::Repeated);
    }
    if ports.len() >= MOST_PORTS {
        return Err(TextWhy::Limit);
    }
    ports.push(Port { vr, kind });
    Ok(())
}

/// The words of a line, or nothing where it is skipped.
fn line_words<'a>(line: &'a [u8], out: &mut Vec<&'a str>) -> Judged<()> {
    out.clear();
    let line = std::str::from_utf8(line).map_err(|_| TextWhy::NotUtf8)?;
    out.extend(words::words(line));
    if out.first().is_some_and(|w| w.starts_with('#')) {
        out.clear();
    }
    Ok(())
}

pub fn read_scenario(text: &[u8]) -> Result<Scenario, TextFault> {
    let mut reader = Reader::new();
    let mut number = 0;
    let mut words = Vec::new();
    for line in words::lines(text) {
        number += 1;
        line_words(line, &mut words)
            .and_then(|()| match words.split_first() {
                Some((first, rest)) => reader.line(first, rest),
                None => Ok(()),
            })
            .map_err(|why| TextFault { line: number, why: why.word() })?;
    }
    reader.end_scenario().map_err(|why| TextFault { line: number + 1, why: why.word() })
}
