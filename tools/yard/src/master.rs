//! The master: phases, rows and the report.

use std::fmt;

use crate::conversation::{Cause, Conversation, Task, Verdict};
use crate::outbox::Outbox;
use crate::pdu::{Cfg, Pdu, decode};
use crate::peers::AddressMap;
use crate::plan;
use crate::rows::Rows;
use crate::scenario::Scenario;
use crate::types::{Address, DataType};

#[derive(Clone, Copy, Debug)]
pub enum Report {
    Finished { steps: u32 },
    Failed { slave: usize, phase: u32, cause: Cause },
}

impl fmt::Display for Report {
    fn fmt(&self, f: &mut fmt::Formatter<'_>) -> fmt::Result {
        let (slave, phase, cause) = match self {
            Report::Finished { steps } => return write!(f, "finished {steps}"),
            Report::Failed { slave, phase, cause } => (slave, phase, cause),
        };
        write!(f, "failed slave {slave} phase {phase} ")?;
        match cause {
            Cause::NoAnswer { seq } => write!(f, "NoAnswer seq {seq}"),
            Cause::Refused { seq, code } => write!(f, "Refused seq {seq} code {code}"),
            Cause::InputsMissing { seq, step } => write!(f, "InputsMissing seq {seq} step {step}"),
            Cause::DataMissing { step } => write!(f, "DataMissing step {step}"),
            Cause::Stuck { seq, state } => write!(f, "Stuck seq {seq} state {state}"),
            Cause::Faulted { seq, code } => write!(f, "Faulted seq {seq} code {code}"),
            Cause::Unexpected { seq, type_id, state } => {
                write!(f, "Unexpected seq {seq} type {type_id} state {state}")
            }
        }
    }
}

/// One slave: its conversation, its list and where its watch data goes.
struct Partner {
    talk: Conversation,
    uuid: u128,
    address: Address,
    list: Vec<Cfg>,
    kinds: Vec<DataType>,
    length: usize,
    /// The first of its columns in a row.
    column: usize,
}

impl Partner {
    fn flush(&mut self, out: &mut Outbox) {
        if let Some(bytes) = self.talk.take_due() {
            out.push_bytes(self.address, bytes);
        }
    }
}

pub struct MasterCore {
    scenario: Scenario,
    partners: Vec<Partner>,
    by_address: AddressMap<usize>,
    /// The phase that runs, 0 before the first.
    phase: u32,
    last_phase: u32,
    rows: Rows,
    report: Option<Report>,
}

impl MasterCore {
    pub fn new(sc: &Scenario) -> MasterCore {
        let mut column = 0;
        let partners: Vec<Partner> = sc
            .slaves
            .iter()
            .zip(plan::setups(sc))
            .zip(1..)
            .map(|((d, list), id)| {
                let kinds = d.output_types();
                column += kinds.len();
                Partner {
                    talk: Conversation::new(id, sc.limits),
                    uuid: d.uuid,
                    address: d.address,
                    list,
                    length: kinds.iter().map(|k| k.width()).sum(),
                    column: column - kinds.len(),
                    kinds,
                }
            })
            .collect();
        MasterCore {
            by_address: partners.iter().enumerate().map(|(s, p)| (p.address, s)).collect(),
            partners,
            phase: 0,
            last_phase: 9 + 2 * sc.steps + (sc.runs - 1) * (8 + 2 * sc.steps),
            rows: Rows::of(sc),
            report: None,
            scenario: sc.clone(),
        }
    }

    pub fn address(&self) -> Address {
        self.scenario.master
    }

    pub fn report(&self) -> Option<Report> {
        self.report
    }

    pub fn rows(&self) -> &Rows {
        &self.rows
    }

    pub fn into_rows(self) -> Rows {
        self.rows
    }

    pub fn on_gram(&mut self, from: Address, bytes: &[u8], out: &mut Outbox) {
        if self.report.is_some() {
            return;
        }
        let Some(&s) = self.by_address.get(&from) else { return };
        let Ok(pdu) = decode(bytes) else { return };
        let partner = &mut self.partners[s];
        let going = partner.talk.verdict() == Verdict::Going;
        match pdu {
            Pdu::Rsp { seq, sender, body } => {
                partner.talk.on_answer(seq, sender, body, &partner.list);
            }
            Pdu::StateChanged { sender, .. } if usize::from(sender) == s + 1 => {
                partner.talk.on_hint();
            }
            Pdu::DataIo { seq, data_id, payload }
                if usize::from(data_id) == s + 1 && payload.len() == partner.length =>
            {
                if let Some(row) = partner.talk.on_watch(seq) {
                    let mut rest = payload;
                    for (port, kind) in partner.kinds.iter().enumerate() {
                        self.rows.put(row, partner.column + port, kind.read(rest));
                        rest = &rest[kind.width()..];
                    }
                }
            }
            _ => return,
        }
        partner.flush(out);
        if going && partner.talk.verdict() == Verdict::Passed {
            self.count_row();
        }
    }

    /// Counts the row once the last slave has passed its outputs' phase.
    fn count_row(&mut self) {
        if self.task(self.phase, 0).row().is_some()
            && self.partners.iter().all(|p| p.talk.verdict() == Verdict::Passed)
        {
            self.rows.grow();
        }
    }

    pub fn on_turn(&mut self, out: &mut Outbox) {
        if self.report.is_some() {
            return;
        }
        if self.phase == 0 {
            self.begin_phase(1, out);
            return;
        }
        let all_settled = self.partners.iter().all(|p| p.talk.verdict() != Verdict::Going);
        for partner in &mut self.partners {
            partner.talk.on_turn(all_settled);
            partner.flush(out);
        }
        let mut cause = None;
        for (s, partner) in self.partners.iter().enumerate() {
            match partner.talk.verdict() {
                Verdict::Going => return,
                Verdict::Passed if partner.talk.waits_for_answer() => return,
                Verdict::Passed => {}
                Verdict::Ended(c) => cause = cause.or(Some((s + 1, c))),
            }
        }
        if let Some((slave, cause)) = cause {
            self.report = Some(Report::Failed { slave, phase: self.phase, cause });
        } else if self.phase == self.last_phase {
            self.report = Some(Report::Finished { steps: self.scenario.steps });
        } else {
            self.begin_phase(self.phase + 1, out);
        }
    }

    /// The run that a phase from 3 on belongs to, and its number in the first run.
    fn in_run(&self, phase: u32) -> (u32, u32) {
        let width = 8 + 2 * self.scenario.steps;
        ((phase - 3) / width + 1, (phase - 3) % width + 3)
    }

    fn task(&self, phase: u32, slave: usize) -> Task {
        if phase < 3 {
            return match phase {
                1 => Task::Register { uuid: self.partners[slave].uuid },
                _ => Task::Setup,
            };
        }
        let sc = &self.scenario;
        let (run, p) = self.in_run(phase);
        let first_row = (run - 1) * (sc.steps + 1);
        let stop = 8 + 2 * sc.steps;
        match p {
            3 => Task::Prepare,
            4 => Task::Configure,
            5 => Task::Initialize,
            6 => Task::FirstOutputs { row: first_row },
            7 => Task::Run,
            _ if p < stop && p % 2 == 0 => Task::Step { k: (p - 6) / 2 },
            _ if p < stop => {
                let k = (p - 7) / 2;
                Task::Outputs { k, row: first_row + k }
            }
            _ if p == stop => Task::Stop,
            _ if p > stop + 1 => Task::Adjust,
            _ if run < sc.runs => Task::Reset,
            _ => Task::Deregister,
        }
    }

    fn begin_phase(&mut self, phase: u32, out: &mut Outbox) {
        self.phase = phase;
        for s in 0..self.partners.len() {
            let task = self.task(phase, s);
            if task == Task::Adjust {
                let (run, _) = self.in_run(phase);
                self.partners[s].list = plan::adjust(&self.scenario, run, s as u8 + 1);
            }
            let partner = &mut self.partners[s];
            partner.talk.begin(task, &partner.list);
            partner.flush(out);
        }
    }
}
