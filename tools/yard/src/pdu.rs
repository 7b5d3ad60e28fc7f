//! Typed messages, their spellings and the judging of bytes.

use crate::types::{DataType, State};

pub const MOST_BYTES: usize = 1024;

#[derive(Clone, Copy, PartialEq, Debug)]
pub enum Pdu<'a> {
    Stc { seq: u16, receiver: u8, state: State, body: Stc },
    Cfg { seq: u16, receiver: u8, body: Cfg },
    Inf { seq: u16, receiver: u8, body: Inf },
    Rsp { seq: u16, sender: u8, body: Rsp<'a> },
    StateChanged { sender: u8, state: State },
    LogNote { sender: u8, category: u8, level: u8, text: &'a [u8] },
    DataIo { seq: u16, data_id: u16, payload: &'a [u8] },
    DataParameter { seq: u16, param_id: u16, payload: &'a [u8] },
}

#[derive(Clone, Copy, PartialEq, Debug)]
pub enum Stc {
    Register { uuid: u128, op_mode: u8, major: u8, minor: u8 },
    Deregister,
    Prepare,
    Configure,
    Initialize,
    Run { start_time: i64 },
    DoStep { steps: u32 },
    SendOutputs,
    Stop,
    Reset,
}

#[derive(Clone, Copy, PartialEq, Debug)]
pub enum Cfg {
    TimeRes { numerator: u32, denominator: u32 },
    Steps { data_id: u16, steps: u32 },
    Input { data_id: u16, pos: u16, vr: u64, source: DataType },
    Output { data_id: u16, pos: u16, vr: u64 },
    Clear,
    Target(NetInfo),
    Source(NetInfo),
    Parameter { vr: u64, kind: DataType, value: i128 },
    Tunable { param_id: u16, pos: u16, vr: u64, kind: DataType },
    ParamNet { param_id: u16, protocol: u8, port: u16, ip: u32 },
    Logging { category: u8, level: u8, mode: u8 },
    Scope { data_id: u16, scope: u8 },
}

#[derive(Clone, Copy, PartialEq, Debug)]
pub struct NetInfo {
    pub data_id: u16,
    pub protocol: u8,
    pub port: u16,
    pub ip: u32,
}

#[derive(Clone, Copy, PartialEq, Debug)]
pub enum Inf {
    State,
    Error,
    Log { category: u8, max_entries: u8 },
}

#[derive(Clone, Copy, PartialEq, Debug)]
pub enum Rsp<'a> {
    Ack,
    Nack { expected: u16, code: u16 },
    StateAck { state: State },
    ErrorAck { code: u16 },
    LogAck { entries: &'a [u8] },
}

impl Rsp<'_> {
    pub fn code(&self) -> u8 {
        match self {
            Rsp::Ack => 0xb0,
            Rsp::Nack { .. } => 0xb1,
            Rsp::StateAck { .. } => 0xb2,
            Rsp::ErrorAck { .. } => 0xb3,
            Rsp::LogAck { .. } => 0xb4,
        }
    }
}

impl Stc {
    fn code(&self) -> u8 {
        match self {
            Stc::Register { .. } => 0x01,
            Stc::Deregister => 0x02,
            Stc::Prepare => 0x03,
            Stc::Configure => 0x04,
            Stc::Initialize => 0x05,
            Stc::Run { .. } => 0x06,
            Stc::DoStep { .. } => 0x07,
            Stc::SendOutputs => 0x08,
            Stc::Stop => 0x09,
            Stc::Reset => 0x0a,
        }
    }
}

#[derive(Clone, Copy, PartialEq, Eq, Debug)]
pub enum DecodeWhy {
    Empty,
    UnknownType,
    Short,
    Long,
    BadState,
    BadType,
    TooLong,
}

#[derive(Clone, Copy, PartialEq, Eq, Debug)]
pub struct DecodeFault {
    pub at: usize,
    pub why: DecodeWhy,
}

type Read<T> = Result<T, DecodeFault>;

/// Reads fields from the front; the first that is cut or refused decides.
struct Fields<'a> {
    bytes: &'a [u8],
    at: usize,
}

impl<'a> Fields<'a> {
    #[inline(always)]
    fn array<const N: usize>(&mut self) -> Read<[u8; N]> {
        match self.bytes[self.at..].first_chunk::<N>() {
            Some(chunk) => {
                self.at += N;
                Ok(*chunk)
            }
            None => Err(DecodeFault { at: self.bytes.len(), why: DecodeWhy::Short }),
        }
    }

    #[inline(always)]
    fn u8(&mut self) -> Read<u8> {
        Ok(self.array::<1>()?[0])
    }

    #[inline(always)]
    fn u16(&mut self) -> Read<u16> {
        Ok(u16::from_le_bytes(self.array()?))
    }

    #[inline(always)]
    fn u32(&mut self) -> Read<u32> {
        Ok(u32::from_le_bytes(self.array()?))
    }

    #[inline(always)]
    fn u64(&mut self) -> Read<u64> {
        Ok(u64::from_le_bytes(self.array()?))
    }

    #[inline(always)]
    fn state(&mut self) -> Read<State> {
        let at = self.at;
        State::from_code(self.u8()?).ok_or(DecodeFault { at, why: DecodeWhy::BadState })
    }

    #[inline(always)]
    fn kind(&mut self) -> Read<DataType> {
        let at = self.at;
        DataType::from_code(self.u8()?).ok_or(DecodeFault { at, why: DecodeWhy::BadType })
    }

    fn value(&mut self, kind: DataType) -> Read<i128> {
        let bytes = &self.bytes[self.at..];
        if bytes.len() < kind.width() {
            return Err(DecodeFault { at: self.bytes.len(), why: DecodeWhy::Short });
        }
        self.at += kind.width();
        Ok(kind.value(kind.read(bytes)))
    }

    fn net_info(&mut self) -> Read<NetInfo> {
        Ok(NetInfo {
            data_id: self.u16()?,
            protocol: self.u8()?,
            port: self.u16()?,
            ip: self.u32()?,
        })
    }

    #[inline(always)]
    fn rest(&mut self) -> Read<&'a [u8]> {
        if self.bytes.len() > MOST_BYTES {
            return Err(DecodeFault { at: MOST_BYTES, why: DecodeWhy::TooLong });
        }
        let rest = &self.bytes[self.at..];
        self.at = self.bytes.len();
        Ok(rest)
    }

    fn stc(&mut self, code: u8) -> Read<Pdu<'a>> {
        let (seq, receiver, state) = (self.u16()?, self.u8()?, self.state()?);
        let body = match code {
            0x01 => Stc::Register {
                uuid: u128::from_be_bytes(self.array()?),
                op_mode: self.u8()?,
                major: self.u8()?,
                minor: self.u8()?,
            },
            0x02 => Stc::Deregister,
            0x03 => Stc::Prepare,
            0x04 => Stc::Configure,
            0x05 => Stc::Initialize,
            0x06 => Stc::Run { start_time: self.u64()? as i64 },
            0x07 => Stc::DoStep { steps: self.u32()? },
            0x08 => Stc::SendOutputs,
            0x09 => Stc::Stop,
            _ => Stc::Reset,
        };
        Ok(Pdu::Stc { seq, receiver, state, body })
    }

    fn cfg(&mut self, code: u8) -> Read<Pdu<'a>> {
        let (seq, receiver) = (self.u16()?, self.u8()?);
        let body = match code {
            0x20 => Cfg::TimeRes { numerator: self.u32()?, denominator: self.u32()? },
            0x21 => Cfg::Steps { data_id: self.u16()?, steps: self.u32()? },
            0x22 => Cfg::Input {
                data_id: self.u16()?,
                pos: self.u16()?,
                vr: self.u64()?,
                source: self.kind()?,
            },
            0x23 => Cfg::Output { data_id: self.u16()?, pos: self.u16()?, vr: self.u64()? },
            0x24 => Cfg::Clear,
            0x25 => Cfg::Target(self.net_info()?),
            0x26 => Cfg::Source(self.net_info()?),
            0x27 => {
                let (vr, kind) = (self.u64()?, self.kind()?);
                Cfg::Parameter { vr, kind, value: self.value(kind)? }
            }
            0x28 => Cfg::Tunable {
                param_id: self.u16()?,
                pos: self.u16()?,
                vr: self.u64()?,
                kind: self.kind()?,
            },
            0x29 => {
                let NetInfo { data_id: param_id, protocol, port, ip } = self.net_info()?;
                Cfg::ParamNet { param_id, protocol, port, ip }
            }
            0x2a => Cfg::Logging { category: self.u8()?, level: self.u8()?, mode: self.u8()? },
            _ => Cfg::Scope { data_id: self.u16()?, scope: self.u8()? },
        };
        Ok(Pdu::Cfg { seq, receiver, body })
    }

    fn inf(&mut self, code: u8) -> Read<Pdu<'a>> {
        let (seq, receiver) = (self.u16()?, self.u8()?);
        let body = match code {
            0x80 => Inf::State,
            0x81 => Inf::Error,
            _ => Inf::Log { category: self.u8()?, max_entries: self.u8()? },
        };
        Ok(Pdu::Inf { seq, receiver, body })
    }

    fn rsp(&mut self, code: u8) -> Read<Pdu<'a>> {
        let (seq, sender) = (self.u16()?, self.u8()?);
        let body = match code {
            0xb0 => Rsp::Ack,
            0xb1 => Rsp::Nack { expected: self.u16()?, code: self.u16()? },
            0xb2 => Rsp::StateAck { state: self.state()? },
            0xb3 => Rsp::ErrorAck { code: self.u16()? },
            _ => Rsp::LogAck { entries: self.rest()? },
        };
        Ok(Pdu::Rsp { seq, sender, body })
    }
}

/// The message that the bytes spell; a payload is a part of the bytes.
pub fn decode(bytes: &[u8]) -> Result<Pdu<'_>, DecodeFault> {
    let Some(&code) = bytes.first() else {
        return Err(DecodeFault { at: 0, why: DecodeWhy::Empty });
    };
    let mut f = Fields { bytes, at: 1 };
    let pdu = match code {
        0x01..=0x0a => f.stc(code)?,
        0x20..=0x2b => f.cfg(code)?,
        0x80..=0x82 => f.inf(code)?,
        0xb0..=0xb4 => f.rsp(code)?,
        0xe0 => Pdu::StateChanged { sender: f.u8()?, state: f.state()? },
        0xe1 => {
            Pdu::LogNote { sender: f.u8()?, category: f.u8()?, level: f.u8()?, text: f.rest()? }
        }
        0xf0 => Pdu::DataIo { seq: f.u16()?, data_id: f.u16()?, payload: f.rest()? },
        0xf1 => Pdu::DataParameter { seq: f.u16()?, param_id: f.u16()?, payload: f.rest()? },
        _ => return Err(DecodeFault { at: 0, why: DecodeWhy::UnknownType }),
    };
    if f.at < bytes.len() {
        return Err(DecodeFault { at: f.at, why: DecodeWhy::Long });
    }
    Ok(pdu)
}

fn head(out: &mut Vec<u8>, code: u8, seq: u16, end: u8) {
    let s = seq.to_le_bytes();
    out.extend_from_slice(&[code, s[0], s[1], end]);
}

fn net(out: &mut Vec<u8>, id: u16, protocol: u8, port: u16, ip: u32) {
    out.extend_from_slice(&id.to_le_bytes());
    out.push(protocol);
    out.extend_from_slice(&port.to_le_bytes());
    out.extend_from_slice(&ip.to_le_bytes());
}

/// Writes the head of a DAT_input_output; its values follow.
pub fn put_data_head(out: &mut Vec<u8>, seq: u16, data_id: u16) {
    let (s, d) = (seq.to_le_bytes(), data_id.to_le_bytes());
    out.extend_from_slice(&[0xf0, s[0], s[1], d[0], d[1]]);
}

impl Pdu<'_> {
    /// Appends the spelling.
    pub fn encode(&self, out: &mut Vec<u8>) {
        match *self {
            Pdu::Stc { seq, receiver, state, body } => {
                head(out, body.code(), seq, receiver);
                out.push(state.code());
                match body {
                    Stc::Register { uuid, op_mode, major, minor } => {
                        out.extend_from_slice(&uuid.to_be_bytes());
                        out.extend_from_slice(&[op_mode, major, minor]);
                    }
                    Stc::Run { start_time } => out.extend_from_slice(&start_time.to_le_bytes()),
                    Stc::DoStep { steps } => out.extend_from_slice(&steps.to_le_bytes()),
                    _ => {}
                }
            }
            Pdu::Cfg { seq, receiver, body } => body.encode(out, seq, receiver),
            Pdu::Inf { seq, receiver, body } => match body {
                Inf::State => head(out, 0x80, seq, receiver),
                Inf::Error => head(out, 0x81, seq, receiver),
                Inf::Log { category, max_entries } => {
                    head(out, 0x82, seq, receiver);
                    out.extend_from_slice(&[category, max_entries]);
                }
            },
            Pdu::Rsp { seq, sender, body } => {
                head(out, body.code(), seq, sender);
                match body {
                    Rsp::Ack => {}
                    Rsp::Nack { expected, code } => {
                        out.extend_from_slice(&expected.to_le_bytes());
                        out.extend_from_slice(&code.to_le_bytes());
                    }
                    Rsp::StateAck { state } => out.push(state.code()),
                    Rsp::ErrorAck { code } => out.extend_from_slice(&code.to_le_bytes()),
                    Rsp::LogAck { entries } => out.extend_from_slice(entries),
                }
            }
            Pdu::StateChanged { sender, state } => {
                out.extend_from_slice(&[0xe0, sender, state.code()]);
            }
            Pdu::LogNote { sender, category, level, text } => {
                out.extend_from_slice(&[0xe1, sender, category, level]);
                out.extend_from_slice(text);
            }
            Pdu::DataIo { seq, data_id, payload } => {
                put_data_head(out, seq, data_id);
                out.extend_from_slice(payload);
            }
            Pdu::DataParameter { seq, param_id, payload } => {
                out.push(0xf1);
                out.extend_from_slice(&seq.to_le_bytes());
                out.extend_from_slice(&param_id.to_le_bytes());
                out.extend_from_slice(payload);
            }
        }
    }
}

impl Cfg {
    fn encode(&self, out: &mut Vec<u8>, seq: u16, receiver: u8) {
        let mut begin = |code| {
            head(out, code, seq, receiver);
        };
        match *self {
            Cfg::TimeRes { numerator, denominator } => {
                begin(0x20);
                out.extend_from_slice(&numerator.to_le_bytes());
                out.extend_from_slice(&denominator.to_le_bytes());
            }
            Cfg::Steps { data_id, steps } => {
                begin(0x21);
                out.extend_from_slice(&data_id.to_le_bytes());
                out.extend_from_slice(&steps.to_le_bytes());
            }
            Cfg::Input { data_id, pos, vr, source } => {
                begin(0x22);
                out.extend_from_slice(&data_id.to_le_bytes());
                out.extend_from_slice(&pos.to_le_bytes());
                out.extend_from_slice(&vr.to_le_bytes());
                out.push(source.code());
            }
            Cfg::Output { data_id, pos, vr } => {
                begin(0x23);
                out.extend_from_slice(&data_id.to_le_bytes());
                out.extend_from_slice(&pos.to_le_bytes());
                out.extend_from_slice(&vr.to_le_bytes());
            }
            Cfg::Clear => begin(0x24),
            Cfg::Target(n) => {
                begin(0x25);
                net(out, n.data_id, n.protocol, n.port, n.ip);
            }
            Cfg::Source(n) => {
                begin(0x26);
                net(out, n.data_id, n.protocol, n.port, n.ip);
            }
            Cfg::Parameter { vr, kind, value } => {
                begin(0x27);
                out.extend_from_slice(&vr.to_le_bytes());
                out.push(kind.code());
                kind.write(value, out);
            }
            Cfg::Tunable { param_id, pos, vr, kind } => {
                begin(0x28);
                out.extend_from_slice(&param_id.to_le_bytes());
                out.extend_from_slice(&pos.to_le_bytes());
                out.extend_from_slice(&vr.to_le_bytes());
                out.push(kind.code());
            }
            Cfg::ParamNet { param_id, protocol, port, ip } => {
                begin(0x29);
                net(out, param_id, protocol, port, ip);
            }
            Cfg::Logging { category, level, mode } => {
                begin(0x2a);
                out.extend_from_slice(&[category, level, mode]);
            }
            Cfg::Scope { data_id, scope } => {
                begin(0x2b);
                out.extend_from_slice(&data_id.to_le_bytes());
                out.push(scope);
            }
        }
    }
}
