//! The commands, their texts and their status.

use std::io::{self, BufWriter, Read, Write};

use crate::host::{Host, ReplayFault, all_hosted, replay};
use crate::master::Report;
use crate::net::MemoryNet;
use crate::rows::{Rows, reference};
use crate::scenario::{Scenario, TextFault, read_scenario};
use crate::trace::{self, Trace};
use crate::{raw, soak};

const TEXT_LIMIT: u64 = 1_048_576;
const TRACE_LIMIT: u64 = 1_073_741_824;
const BUFFER: usize = 1 << 16;

#[derive(Clone, Copy, PartialEq, Eq)]
#[repr(u8)]
pub enum Status {
    Done,
    Usage,
    BadInput,
    RunFailed,
    ReadFault,
    WriteFault,
    Differs = 8,
}

enum Failure {
    Read,
    Write,
    BadInput(String),
}

impl From<io::Error> for Failure {
    fn from(_: io::Error) -> Failure {
        Failure::Write
    }
}

impl From<TextFault> for Failure {
    fn from(f: TextFault) -> Failure {
        Failure::BadInput(format!("input: line {} {}\n", f.line, f.why))
    }
}

fn bad_byte(at: usize, why: &str) -> Failure {
    Failure::BadInput(format!("input: byte {at} {why}\n"))
}

type Outcome = Result<Status, Failure>;
type Out<'a> = BufWriter<io::StdoutLock<'a>>;

/// The input, to one byte past its limit.
fn input(limit: u64) -> Result<Vec<u8>, Failure> {
    let mut bytes = Vec::new();
    io::stdin().lock().take(limit + 1).read_to_end(&mut bytes).map_err(|_| Failure::Read)?;
    Ok(bytes)
}

fn text() -> Result<Vec<u8>, Failure> {
    let bytes = input(TEXT_LIMIT)?;
    if bytes.len() as u64 > TEXT_LIMIT {
        return Err(TextFault { line: 0, why: "LIMIT" }.into());
    }
    Ok(bytes)
}

fn do_reference(out: &mut Out<'_>) -> Outcome {
    let sc = read_scenario(&text()?)?;
    let (rows, fault) = reference(&sc);
    rows.print(out)?;
    match fault {
        None => writeln!(out, "finished {}", sc.steps)?,
        Some(f) => {
            write!(out, "fault slave {} step {} code {}", f.slave, f.step, f.code as u16)?;
            if f.run > 1 {
                write!(out, " run {}", f.run)?;
            }
            writeln!(out)?;
        }
    }
    Ok(Status::Done)
}

fn status(report: Report) -> Status {
    match report {
        Report::Finished { .. } => Status::Done,
        Report::Failed { .. } => Status::RunFailed,
    }
}

fn run_host(sc: &Scenario) -> (Host, Report) {
    let mut host = Host::new(sc);
    let mut net = MemoryNet::new(sc.slaves.len() + 1, sc.net.clone());
    let report = host.run(&mut net);
    (host, report)
}

fn print_run(rows: &Rows, report: Report, out: &mut Out<'_>) -> Outcome {
    rows.print(out)?;
    writeln!(out, "{report}")?;
    Ok(status(report))
}

fn run(out: &mut Out<'_>) -> Outcome {
    let text = text()?;
    let sc = read_scenario(&text)?;
    let (host, report) = run_host(&sc);
    let status = print_run(host.rows(), report, out)?;
    out.flush()?;
    trace::write(all_hosted(&sc), &text, &host, &mut io::stderr().lock())?;
    Ok(status)
}

fn do_replay(out: &mut Out<'_>) -> Outcome {
    let bytes = input(TRACE_LIMIT)?;
    if bytes.len() as u64 > TRACE_LIMIT {
        return Err(bad_byte(0, "LIMIT"));
    }
    let trace = Trace::read(&bytes).map_err(|f| bad_byte(f.at, f.why))?;
    let sc = read_scenario(trace.scenario).map_err(|_| bad_byte(13, "HEADER"))?;
    if trace.hosted & !all_hosted(&sc) != 0 {
        return Err(bad_byte(5, "HEADER"));
    }
    match replay(&sc, trace.hosted, trace.entries()) {
        Ok((report, rows)) => return print_run(&rows, report, out),
        Err(ReplayFault::Differs { at }) => writeln!(out, "differs at {at}")?,
        Err(ReplayFault::Unended { entries }) => writeln!(out, "unended {entries}")?,
    }
    Ok(Status::Differs)
}

fn do_soak(n: u32, out: &mut Out<'_>) -> Outcome {
    let sc = read_scenario(soak::scenario(n).as_bytes())?;
    let (host, report) = run_host(&sc);
    writeln!(out, "soak {n} slaves {} steps {} {report}", sc.slaves.len(), sc.steps)?;
    writeln!(out, "sum {}", host.rows().sum())?;
    Ok(status(report))
}

/// Any fault of the sockets is told as one of writing.
fn do_raw(done: io::Result<()>) -> Outcome {
    done?;
    Ok(Status::Done)
}

fn soak_number(word: &str) -> Option<u32> {
    let good = (1..=6).contains(&word.len()) && word.bytes().all(|b| b.is_ascii_digit());
    good.then(|| word.parse().expect("six digits"))
}

fn usage(out: &mut Out<'_>) -> Outcome {
    out.write_all(b"usage\n")?;
    Ok(Status::Usage)
}

fn command(words: &[&str], out: &mut Out<'_>) -> Outcome {
    match words {
        ["reference"] => do_reference(out),
        ["run"] => run(out),
        ["replay"] => do_replay(out),
        ["soak", n] => match soak_number(n) {
            Some(n) => do_soak(n, out),
            None => usage(out),
        },
        ["raw", protocol, n] => match (*protocol, n.parse()) {
            ("udp", Ok(n)) => do_raw(raw::udp(n)),
            ("tcp", Ok(n)) => do_raw(raw::tcp(n)),
            _ => usage(out),
        },
        _ => usage(out),
    }
}

pub fn main(words: &[&str]) -> Status {
    let mut out = BufWriter::with_capacity(BUFFER, io::stdout().lock());
    let outcome = command(words, &mut out);
    let (status, line) = match outcome {
        Ok(status) => (status, String::new()),
        Err(Failure::BadInput(line)) => (Status::BadInput, line),
        Err(Failure::Read) => return Status::ReadFault,
        Err(Failure::Write) => return Status::WriteFault,
    };
    let written = out.write_all(line.as_bytes()).and_then(|()| out.flush());
    match written {
        Err(_) if matches!(status, Status::Done | Status::RunFailed) => Status::WriteFault,
        _ => status,
    }
}
