//! One slave: a state machine over datagrams and turns.

use crate::models::Model;
use crate::outbox::Outbox;
use crate::pdu::{Cfg, Inf, Pdu, Rsp, Stc, decode};
use crate::scenario::SlaveDesc;
use crate::slave_log::SlaveLog;
use crate::types::{Address, ErrorCode, FaultCode, State};
use crate::wiring::Wiring;

pub enum Place {
    Next,
    Repeat,
    Old,
    Ahead,
}

pub fn place(seq: u16, expected: u16) -> Place {
    match seq.wrapping_sub(expected) {
        0 => Place::Next,
        65_535 => Place::Repeat,
        1..=32_767 => Place::Ahead,
        _ => Place::Old,
    }
}

/// The state right after an accepted request.
fn next_on(
    state: State,
    request: &Stc,
    named: State,
    outputs_sent: bool,
) -> Result<State, ErrorCode> {
    use State::*;
    if state.in_error() && !(state == ErrorResolved && *request == Stc::Deregister) {
        return Err(ErrorCode::InErrorState);
    }
    if named != state {
        return Err(ErrorCode::WrongState);
    }
    Ok(match (request, state) {
        (Stc::Prepare, Configuration) => Preparing,
        (Stc::Configure, Prepared) => Configuring,
        (Stc::Initialize, Configured) if !outputs_sent => Initializing,
        (Stc::SendOutputs, Initialized) => SendingI,
        (Stc::Run { .. }, Configured) if outputs_sent => Synchronizing,
        (Stc::DoStep { .. }, Running) => Computing,
        (Stc::SendOutputs, Computed) => SendingD,
        (Stc::Stop, Running | Computed) => Stopping,
        (Stc::Reset, Stopped) => Configuration,
        (Stc::Deregister, s) if s != Alive && next_on_turn(s).is_none() => Alive,
        _ => return Err(ErrorCode::WrongState),
    })
}

/// The state that a passing state becomes.
fn next_on_turn(state: State) -> Option<State> {
    use State::*;
    Some(match state {
        Preparing => Prepared,
        Configuring => Configured,
        Initializing => Initialized,
        SendingI => Configured,
        Synchronizing | SendingD => Running,
        Computing => Computed,
        Stopping => Stopped,
        ErrorHandling => ErrorResolved,
        _ => return None,
    })
}

#[derive(Clone, Copy, PartialEq, Eq)]
enum Session {
    Unregistered,
    Registered,
    Ended,
}

enum Reply {
    Ack,
    State,
    Error,
    Log { category: u8, most: u8 },
}

/// The notes of one event: category, level, code.
#[derive(Default)]
struct Notes {
    list: [(u8, u8, u8); 3],
    count: usize,
}

impl Notes {
    fn add(&mut self, category: u8, level: u8, code: u8) {
        self.list[self.count] = (category, level, code);
        self.count += 1;
    }
}

pub struct SlaveCore {
    desc: SlaveDesc,
    model: Model,
    wiring: Wiring,
    log: SlaveLog,
    micro: u32,
    session: Session,
    state: State,
    master: Address,
    id: u8,
    expected: u16,
    /// The answer to the last request that was taken.
    kept: Vec<u8>,
    steps: u32,
    outputs_sent: bool,
    busy_left: u32,
    quiet: u32,
    fault: Option<FaultCode>,
}

impl SlaveCore {
    pub fn new(desc: &SlaveDesc, micro: u32) -> SlaveCore {
        SlaveCore {
            model: Model::new(desc.kind, &desc.parameters, desc.output_types()),
            wiring: Wiring::new(desc),
            desc: desc.clone(),
            log: SlaveLog::default(),
            micro,
            session: Session::Unregistered,
            state: State::Alive,
            master: Address::default(),
            id: 0,
            expected: 0,
            kept: Vec::new(),
            steps: 0,
            outputs_sent: false,
            busy_left: 0,
            quiet: 0,
            fault: None,
        }
    }

    pub fn address(&self) -> Address {
        self.desc.address
    }

    pub fn on_gram(&mut self, from: Address, bytes: &[u8], out: &mut Outbox) {
        let Ok(pdu) = decode(bytes) else { return };
        let (seq, receiver) = match pdu {
            Pdu::DataIo { seq, data_id, payload } => {
                if self.session == Session::Registered
                    && (State::Prepared..=State::SendingD).contains(&self.state)
                {
                    self.wiring.take_data(from, seq, data_id, payload, self.steps);
                }
                return;
            }
            Pdu::Stc { seq, receiver, .. }
            | Pdu::Cfg { seq, receiver, .. }
            | Pdu::Inf { seq, receiver, .. } => (seq, receiver),
            _ => return,
        };
        if self.session == Session::Unregistered {
            if let Pdu::Stc { seq: 0, state, body: body @ Stc::Register { .. }, .. } = pdu {
                self.register(from, receiver, state, body, out);
            }
            return;
        }
        if from != self.master || receiver != self.id {
            return;
        }
        match place(seq, self.expected) {
            Place::Repeat => out.push_bytes(self.master, &self.kept),
            Place::Next if self.session == Session::Registered => self.take(seq, &pdu, out),
            Place::Ahead if self.session == Session::Registered => {
                out.push(self.master, &self.nack(seq, ErrorCode::Sequence));
            }
            _ => {}
        }
    }

    fn register(&mut self, from: Address, receiver: u8, named: State, body: Stc, out: &mut Outbox) {
        let Stc::Register { uuid, op_mode, major, minor } = body else { return };
        let refusal = if named != State::Alive {
            Some(ErrorCode::WrongState)
        } else if uuid != self.desc.uuid {
            Some(ErrorCode::UuidMismatch)
        } else if (major, minor) != (1, 0) {
            Some(ErrorCode::Version)
        } else if op_mode != 2 {
            Some(ErrorCode::OpMode)
        } else {
            None
        };
        let body = match refusal {
            Some(code) => Rsp::Nack { expected: 0, code: code as u16 },
            None => Rsp::Ack,
        };
        let answer = Pdu::Rsp { seq: 0, sender: receiver, body };
        if refusal.is_none() {
            self.session = Session::Registered;
            self.master = from;
            self.id = receiver;
            self.state = State::Configuration;
            self.expected = 1;
            self.quiet = 0;
            self.kept.clear();
            answer.encode(&mut self.kept);
        }
        out.push(from, &answer);
    }

    fn nack(&self, seq: u16, code: ErrorCode) -> Pdu<'static> {
        let body = Rsp::Nack { expected: self.expected, code: code as u16 };
        Pdu::Rsp { seq, sender: self.id, body }
    }

    fn take(&mut self, seq: u16, pdu: &Pdu<'_>, out: &mut Outbox) {
        self.expected = self.expected.wrapping_add(1);
        self.quiet = 0;
        let mut notes = Notes::default();
        let reply = self.judge(pdu, &mut notes);
        self.kept.clear();
        let mut answer = |body| Pdu::Rsp { seq, sender: self.id, body }.encode(&mut self.kept);
        match reply {
            Ok(Reply::Ack) => answer(Rsp::Ack),
            Ok(Reply::State) => answer(Rsp::StateAck { state: self.state }),
            Ok(Reply::Error) => {
                answer(Rsp::ErrorAck { code: self.fault.map_or(0, |f| f as u16) });
            }
            Ok(Reply::Log { category, most }) => {
                answer(Rsp::LogAck { entries: &[] });
                self.log.fetch(category, most, &mut self.kept);
            }
            Err(code) => {
                answer(Rsp::Nack { expected: self.expected, code: code as u16 });
            }
        }
        out.push_bytes(self.master, &self.kept);
        self.write_notes(&notes, out);
    }

    fn judge(&mut self, pdu: &Pdu<'_>, notes: &mut Notes) -> Result<Reply, ErrorCode> {
        match *pdu {
            Pdu::Inf { body: Inf::State, .. } => Ok(Reply::State),
            Pdu::Inf { body: Inf::Error, .. } => Ok(Reply::Error),
            Pdu::Inf { body: Inf::Log { category, max_entries: most }, .. } => {
                if (1..=3).contains(&category) {
                    Ok(Reply::Log { category, most })
                } else {
                    Err(ErrorCode::ValueRange)
                }
            }
            Pdu::Cfg { ref body, .. } => self.configure(body).map(|()| Reply::Ack),
            Pdu::Stc { state: named, ref body, .. } => {
                self.change(named, body, notes).map(|()| Reply::Ack)
            }
            _ => unreachable!("only requests are taken"),
        }
    }

    fn configure(&mut self, body: &Cfg) -> Result<(), ErrorCode> {
        if self.state.in_error() {
            return Err(ErrorCode::InErrorState);
        }
        if matches!(body, Cfg::Tunable { .. } | Cfg::ParamNet { .. } | Cfg::Scope { .. }) {
            return Err(ErrorCode::NotSupported);
        }
        if self.state != State::Configuration {
            return Err(ErrorCode::WrongState);
        }
        match *body {
            Cfg::Parameter { vr, kind, value } => {
                if vr >= self.model.parameters().len() as u64 {
                    Err(ErrorCode::UnknownVr)
                } else if kind != crate::types::DataType::I64 {
                    Err(ErrorCode::TypeMismatch)
                } else if !self.model.set(vr as usize, value as i64) {
                    Err(ErrorCode::ValueRange)
                } else {
                    Ok(())
                }
            }
            Cfg::Logging { category, level, mode } => self.log.configure(category, level, mode),
            _ => {
                self.wiring.apply(body)?;
                if *body == Cfg::Clear {
                    self.model.set_all(&self.desc.parameters);
                }
                Ok(())
            }
        }
    }

    fn change(&mut self, named: State, body: &Stc, notes: &mut Notes) -> Result<(), ErrorCode> {
        let next = next_on(self.state, body, named, self.outputs_sent)?;
        match *body {
            Stc::Prepare if !self.wiring.complete() => return Err(ErrorCode::IncompleteConfig),
            Stc::Run { start_time } if start_time != 0 => return Err(ErrorCode::ValueRange),
            Stc::DoStep { steps } => {
                if steps != 1 || self.steps == u32::MAX {
                    return Err(ErrorCode::BadSteps);
                }
                if !self.wiring.ready(self.steps) {
                    notes.add(2, 2, ErrorCode::InputsMissing as u8);
                    return Err(ErrorCode::InputsMissing);
                }
                self.busy_left = self.desc.busy;
            }
            Stc::Deregister => self.session = Session::Ended,
            Stc::Reset => {
                self.wiring.restart(self.steps);
                self.model.restart();
                self.steps = 0;
                self.outputs_sent = false;
            }
            _ => {}
        }
        self.state = next;
        notes.add(1, 3, next.code());
        Ok(())
    }

    pub fn on_turn(&mut self, out: &mut Outbox) {
        if self.session != Session::Registered {
            return;
        }
        self.quiet = self.quiet.saturating_add(1);
        let mut notes = Notes::default();
        let missed = self.desc.heartbeat != 0
            && self.quiet >= self.desc.heartbeat
            && self.state != State::Stopped
            && !self.state.in_error();
        let reached = if missed {
            Err(FaultCode::HeartbeatMissed)
        } else {
            let Some(next) = next_on_turn(self.state) else { return };
            if self.state == State::Computing && self.busy_left > 0 {
                self.busy_left -= 1;
                return;
            }
            self.act(&mut notes, out).map(|()| next)
        };
        self.state = match reached {
            Ok(next) => next,
            Err(fault) => {
                self.fault = Some(fault);
                notes.add(3, 1, fault as u8);
                State::ErrorHandling
            }
        };
        out.push(self.master, &Pdu::StateChanged { sender: self.id, state: self.state });
        notes.add(1, 2, self.state.code());
        self.write_notes(&notes, out);
    }

    fn act(&mut self, notes: &mut Notes, out: &mut Outbox) -> Result<(), FaultCode> {
        match self.state {
            State::Initializing => {
                self.model.outputs()?;
            }
            State::Computing => {
                self.model.step(self.wiring.inputs(), self.micro)?;
                self.steps += 1;
                notes.add(2, 3, 0);
            }
            State::SendingI | State::SendingD => {
                let outputs = self.model.outputs()?;
                self.wiring.send_due(self.steps, &outputs, out);
                if self.state == State::SendingI {
                    self.outputs_sent = true;
                }
            }
            _ => {}
        }
        Ok(())
    }

    fn write_notes(&mut self, notes: &Notes, out: &mut Outbox) {
        for &(category, level, code) in &notes.list[..notes.count] {
            if let Some(line) = self.log.note(category, level, code, self.steps) {
                let mut text = [0; 9];
                text[..4].copy_from_slice(&line.number.to_le_bytes());
                text[4] = code;
                text[5..].copy_from_slice(&line.step.to_le_bytes());
                let note = Pdu::LogNote { sender: self.id, category, level, text: &text };
                out.push(self.master, &note);
            }
        }
    }
}
