//! Data ids, positions and the configuration lists of each slave.

use std::collections::BTreeMap;

use crate::pdu::{Cfg, NetInfo};
use crate::scenario::{Scenario, Setting};
use crate::types::{Address, DataType};

const FIRST_PAIR: u16 = 17;

struct Link {
    id: u16,
    from: u8,
    to: u8,
    every: u32,
    /// Output and input ports, in order of position.
    positions: Vec<(u8, u8)>,
}

fn links(sc: &Scenario) -> Vec<Link> {
    let mut pairs: BTreeMap<(u8, u8), Vec<(u8, u8)>> = BTreeMap::new();
    for w in &sc.wires {
        pairs.entry((w.from, w.to)).or_default().push((w.out, w.into));
    }
    pairs
        .into_iter()
        .zip(FIRST_PAIR..)
        .map(|(((from, to), mut positions), id)| {
            positions.sort_unstable();
            Link { id, from, to, every: sc.interval(from, to), positions }
        })
        .collect()
}

fn parameter(set: &Setting) -> Cfg {
    Cfg::Parameter { vr: set.index.into(), kind: DataType::I64, value: set.value.into() }
}

/// The setup list of each slave.
pub fn setups(sc: &Scenario) -> Vec<Vec<Cfg>> {
    let links = links(sc);
    (1..=sc.slaves.len() as u8).map(|s| setup(sc, &links, s)).collect()
}

fn setup(sc: &Scenario, links: &[Link], s: u8) -> Vec<Cfg> {
    let d = &sc.slaves[s as usize - 1];
    let net =
        |data_id, a: Address| NetInfo { data_id, protocol: sc.protocol, port: a.port, ip: a.ip };
    let address = |s: u8| sc.slaves[s as usize - 1].address;
    let output = |data_id, pos: usize, port: u8| Cfg::Output {
        data_id,
        pos: pos as u16,
        vr: d.outputs[port as usize].vr,
    };
    let steps = |l: &Link| Cfg::Steps { data_id: l.id, steps: l.every };

    let mut list =
        vec![Cfg::Clear, Cfg::TimeRes { numerator: d.numerator, denominator: d.denominator }];
    list.extend(sc.settings.iter().filter(|set| set.slave == s).map(parameter));
    for l in links.iter().filter(|l| l.to == s) {
        for (pos, &(_, into)) in l.positions.iter().enumerate() {
            let port = &d.inputs[into as usize];
            list.push(Cfg::Input {
                data_id: l.id,
                pos: pos as u16,
                vr: port.vr,
                source: port.kind,
            });
        }
        list.push(Cfg::Source(net(l.id, address(l.from))));
        if l.every != 1 {
            list.push(steps(l));
        }
    }
    for l in links.iter().filter(|l| l.from == s) {
        list.extend(l.positions.iter().enumerate().map(|(pos, &(o, _))| output(l.id, pos, o)));
        list.push(Cfg::Target(net(l.id, address(l.to))));
        if l.every != 1 {
            list.push(steps(l));
        }
    }
    let watch = u16::from(s);
    list.extend((0..d.outputs.len()).map(|port| output(watch, port, port as u8)));
    list.push(Cfg::Target(net(watch, sc.master)));
    list
}

/// What a slave is given between run `run` and the next.
pub fn adjust(sc: &Scenario, run: u32, s: u8) -> Vec<Cfg> {
    sc.reruns
        .iter()
        .filter(|r| r.run == run + 1 && r.set.slave == s)
        .map(|r| parameter(&r.set))
        .collect()
}
