//! One slave as the master sees it.

use crate::pdu::{Cfg, Inf, Pdu, Rsp, Stc};
use crate::scenario::Limits;
use crate::types::{ErrorCode, State};

#[derive(Clone, Copy, PartialEq, Eq, Debug)]
pub enum Task {
    Register { uuid: u128 },
    Setup,
    Prepare,
    Configure,
    Initialize,
    FirstOutputs { row: u32 },
    Run,
    Step { k: u32 },
    Outputs { k: u32, row: u32 },
    Stop,
    Reset,
    Adjust,
    Deregister,
}

impl Task {
    /// The request and the state that it names; none where the task is a list.
    fn request(self) -> Option<(State, Stc)> {
        Some(match self {
            Task::Register { uuid } => {
                (State::Alive, Stc::Register { uuid, op_mode: 2, major: 1, minor: 0 })
            }
            Task::Setup | Task::Adjust => return None,
            Task::Prepare => (State::Configuration, Stc::Prepare),
            Task::Configure => (State::Prepared, Stc::Configure),
            Task::Initialize => (State::Configured, Stc::Initialize),
            Task::FirstOutputs { .. } => (State::Initialized, Stc::SendOutputs),
            Task::Run => (State::Configured, Stc::Run { start_time: 0 }),
            Task::Step { .. } => (State::Running, Stc::DoStep { steps: 1 }),
            Task::Outputs { .. } => (State::Computed, Stc::SendOutputs),
            Task::Stop => (State::Running, Stc::Stop),
            Task::Reset => (State::Stopped, Stc::Reset),
            Task::Deregister => (State::Stopped, Stc::Deregister),
        })
    }

    fn passing(self) -> Option<State> {
        Some(match self {
            Task::Prepare => State::Preparing,
            Task::Configure => State::Configuring,
            Task::Initialize => State::Initializing,
            Task::FirstOutputs { .. } => State::SendingI,
            Task::Run => State::Synchronizing,
            Task::Step { .. } => State::Computing,
            Task::Outputs { .. } => State::SendingD,
            Task::Stop => State::Stopping,
            _ => return None,
        })
    }

    fn target(self) -> Option<State> {
        Some(match self {
            Task::Register { .. } | Task::Setup | Task::Reset | Task::Adjust => {
                State::Configuration
            }
            Task::Prepare => State::Prepared,
            Task::Configure | Task::FirstOutputs { .. } => State::Configured,
            Task::Initialize => State::Initialized,
            Task::Run | Task::Outputs { .. } => State::Running,
            Task::Step { .. } => State::Computed,
            Task::Stop => State::Stopped,
            Task::Deregister => return None,
        })
    }

    /// The ordinal of the watch message that is needed, which is the row's number.
    pub fn row(self) -> Option<u32> {
        match self {
            Task::FirstOutputs { row } | Task::Outputs { row, .. } => Some(row),
            _ => None,
        }
    }

    fn step(self) -> u32 {
        match self {
            Task::Step { k } | Task::Outputs { k, .. } => k,
            _ => 0,
        }
    }
}

#[derive(Clone, Copy, PartialEq, Eq, Debug)]
pub enum Cause {
    NoAnswer { seq: u16 },
    Refused { seq: u16, code: u16 },
    InputsMissing { seq: u16, step: u32 },
    DataMissing { step: u32 },
    Stuck { seq: u16, state: u8 },
    Faulted { seq: u16, code: u16 },
    Unexpected { seq: u16, type_id: u8, state: u8 },
}

#[derive(Clone, Copy, PartialEq, Eq, Debug)]
pub enum Verdict {
    Going,
    Passed,
    Ended(Cause),
}

#[derive(Clone, Copy, PartialEq, Eq)]
enum Request {
    Cfg,
    Stc,
    State,
    Error,
}

#[derive(Clone, Copy, PartialEq, Eq)]
enum Waits {
    Nothing,
    State,
    Retry,
    Data,
}

pub struct Conversation {
    id: u8,
    limits: Limits,
    task: Option<Task>,
    verdict: Verdict,
    next_seq: u16,
    open: Option<Request>,
    open_seq: u16,
    /// The bytes of the last request.
    request: Vec<u8>,
    due: bool,
    sendings: u32,
    since_send: u32,
    since_answer: u32,
    since_ack: u32,
    waits: Waits,
    hint: bool,
    /// The last INF_state was first sent at or past the state limit.
    late: bool,
    nacks: u32,
    /// The place in the list of a Setup or Adjust.
    at: usize,
    watch_kept: bool,
}

impl Conversation {
    pub fn new(id: u8, limits: Limits) -> Conversation {
        Conversation {
            id,
            limits,
            task: None,
            verdict: Verdict::Going,
            next_seq: 0,
            open: None,
            open_seq: 0,
            request: Vec::with_capacity(32),
            due: false,
            sendings: 0,
            since_send: 0,
            since_answer: 0,
            since_ack: 0,
            waits: Waits::Nothing,
            hint: false,
            late: false,
            nacks: 0,
            at: 0,
            watch_kept: false,
        }
    }

    pub fn verdict(&self) -> Verdict {
        self.verdict
    }

    pub fn waits_for_answer(&self) -> bool {
        self.open.is_some()
    }

    /// The request that is to be sent now; it is handed out once.
    pub fn take_due(&mut self) -> Option<&[u8]> {
        std::mem::take(&mut self.due).then_some(&self.request)
    }

    fn ended(&self) -> bool {
        matches!(self.verdict, Verdict::Ended(_))
    }

    fn send(&mut self, request: Request, pdu: impl FnOnce(u16, u8) -> Pdu<'static>) {
        self.open = Some(request);
        self.waits = Waits::Nothing;
        self.open_seq = self.next_seq;
        self.next_seq = self.next_seq.wrapping_add(1);
        self.request.clear();
        pdu(self.open_seq, self.id).encode(&mut self.request);
        self.sendings = 1;
        self.since_send = 0;
        self.due = true;
    }

    fn send_inf(&mut self, request: Request, body: Inf) {
        self.send(request, |seq, receiver| Pdu::Inf { seq, receiver, body });
    }

    fn send_state(&mut self) {
        self.hint = false;
        self.late = self.since_ack >= self.limits.state_limit;
        self.send_inf(Request::State, Inf::State);
    }

    fn send_stc(&mut self, (state, body): (State, Stc)) {
        self.send(Request::Stc, |seq, receiver| Pdu::Stc { seq, receiver, state, body });
    }

    fn send_from(&mut self, list: &[Cfg]) {
        match list.get(self.at) {
            Some(&body) => {
                self.send(Request::Cfg, |seq, receiver| Pdu::Cfg { seq, receiver, body });
            }
            None => self.verdict = Verdict::Passed,
        }
    }

    pub fn begin(&mut self, task: Task, list: &[Cfg]) {
        self.task = Some(task);
        self.verdict = Verdict::Going;
        self.hint = false;
        self.nacks = 0;
        self.at = 0;
        self.watch_kept = false;
        self.waits = Waits::Nothing;
        match task.request() {
            Some(request) => self.send_stc(request),
            None => self.send_from(list),
        }
    }

    fn end(&mut self, cause: Cause) {
        self.verdict = Verdict::Ended(cause);
        self.waits = Waits::Nothing;
    }

    /// An RSP from the slave's address.
    pub fn on_answer(&mut self, seq: u16, sender: u8, body: Rsp<'_>, list: &[Cfg]) {
        let (Some(open), Some(task)) = (self.open, self.task) else { return };
        if seq != self.open_seq || sender != self.id {
            return;
        }
        self.open = None;
        if self.ended() {
            return;
        }
        self.since_answer = 0;
        match (open, body) {
            (Request::Stc, Rsp::Nack { code, .. })
                if matches!(task, Task::Step { .. }) && code == ErrorCode::InputsMissing as u16 =>
            {
                self.nacks += 1;
                if self.nacks >= self.limits.step_tries {
                    self.end(Cause::InputsMissing { seq, step: task.step() });
                } else {
                    self.waits = Waits::Retry;
                }
            }
            (_, Rsp::Nack { code, .. }) => self.end(Cause::Refused { seq, code }),
            (Request::Cfg, Rsp::Ack) => {
                self.at += 1;
                self.send_from(list);
            }
            (Request::Stc, Rsp::Ack) => {
                self.since_ack = 0;
                match task {
                    Task::Deregister => self.verdict = Verdict::Passed,
                    Task::Register { .. } | Task::Reset => self.send_state(),
                    _ if self.hint => self.send_state(),
                    _ => self.waits = Waits::State,
                }
            }
            (Request::State, Rsp::StateAck { state }) => self.on_state(seq, state, task),
            (Request::Error, Rsp::ErrorAck { code }) => self.end(Cause::Faulted { seq, code }),
            (_, Rsp::StateAck { state }) => self.unexpected(seq, 0xb2, state.code()),
            (_, body) => self.unexpected(seq, body.code(), 255),
        }
    }

    fn unexpected(&mut self, seq: u16, type_id: u8, state: u8) {
        self.end(Cause::Unexpected { seq, type_id, state });
    }

    fn on_state(&mut self, seq: u16, state: State, task: Task) {
        if state.in_error() {
            self.send_inf(Request::Error, Inf::Error);
        } else if self.verdict == Verdict::Passed {
            if Some(state) != task.target() {
                self.unexpected(seq, 0xb2, state.code());
            }
        } else if Some(state) == task.target() {
            if task.row().is_some() && !self.watch_kept {
                self.waits = Waits::Data;
            } else {
                self.verdict = Verdict::Passed;
            }
        } else if Some(state) == task.passing() {
            if self.late {
                self.end(Cause::Stuck { seq, state: state.code() });
            } else if self.hint {
                self.send_state();
            } else {
                self.waits = Waits::State;
            }
        } else {
            self.unexpected(seq, 0xb2, state.code());
        }
    }

    /// An NTF_state_changed with the slave's address and id.
    pub fn on_hint(&mut self) {
        self.hint = true;
        if self.waits == Waits::State {
            self.send_state();
        }
    }

    /// A watch message; true, with its row, where it is kept.
    pub fn on_watch(&mut self, seq: u16) -> Option<u32> {
        let row = self.task?.row()?;
        if self.watch_kept || seq != row as u16 {
            return None;
        }
        self.watch_kept = true;
        if self.waits == Waits::Data {
            self.waits = Waits::Nothing;
            self.verdict = Verdict::Passed;
        }
        Some(row)
    }

    pub fn on_turn(&mut self, all_settled: bool) {
        let Some(task) = self.task else { return };
        if self.ended() {
            return;
        }
        self.since_answer += 1;
        self.since_ack += 1;
        if self.open.is_some() {
            self.since_send += 1;
            if self.since_send >= self.limits.turn_limit {
                if self.sendings >= self.limits.tries {
                    self.end(Cause::NoAnswer { seq: self.open_seq });
                } else {
                    self.sendings += 1;
                    self.since_send = 0;
                    self.due = true;
                }
            }
            return;
        }
        match self.waits {
            Waits::State if self.since_answer >= self.limits.watch_turns => self.send_state(),
            Waits::Retry if self.since_answer >= self.limits.retry_turns => {
                if let Some(request) = task.request() {
                    self.send_stc(request);
                }
            }
            Waits::Data if self.since_answer >= self.limits.data_turns => {
                self.end(Cause::DataMissing { step: task.step() });
            }
            Waits::Nothing
                if self.verdict == Verdict::Passed
                    && !all_settled
                    && task != Task::Deregister
                    && self.since_answer >= self.limits.watch_turns =>
            {
                self.send_state();
            }
            _ => {}
        }
    }
}
