//! A network file (document 01) as prepared tables.

use crate::standin::powerio_matrix::{
    AcOpfPreparation, AnalysisBranchSource, Branches, Buses, Generators, PiecewiseLinearCost, PreparedObjective,
};
use crate::standin::powerio_prob::AcOpfInstance;
use crate::standin::Identity;
use alloc::vec::Vec;

/// The tables, or nothing where the form is wrong: refusals 1 and 3 without their
/// places. The limits of refusal 2 and the rules of 4 to 6 are not looked at.
pub fn network(words: &[u32], numbers: &[f64]) -> Option<AcOpfInstance> {
    let mut numbers = numbers.iter().copied();
    let (&header, words) = words.split_first()?;
    if header >> 28 != 1 || header & 0x0fff_ffff > 1 {
        return None;
    }
    let mut tables = AcOpfPreparation {
        n_buses: 0,
        bus_ids: Vec::new(),
        reference_buses: Vec::new(),
        objective: if header & 1 == 1 { PreparedObjective::NetworkGeneratorCost } else { PreparedObjective::Other },
        buses: Buses::default(),
        generators: Generators::default(),
        branches: Branches::default(),
    };
    let mut kind = 2;
    for &word in words {
        if word >> 28 < kind {
            return None;
        }
        kind = word >> 28;
        let load = (word & 0x0fff_ffff) as usize;
        let bus = |shift: usize, count: usize| {
            let bus = load >> shift & 0xfff;
            (bus < count).then_some(bus)
        };
        match kind {
            2 => {
                let [p_d, q_d, g_s, b_s, vm_min, vm_max, va, vm] = take(&mut numbers)?;
                if load >> 1 != 0 {
                    return None;
                }
                let t = &mut tables.buses;
                t.p_d.push(p_d);
                t.q_d.push(q_d);
                t.g_s.push(g_s);
                t.b_s.push(b_s);
                t.vm_min.push(vm_min);
                t.vm_max.push(vm_max);
                t.initial_va.push(va);
                t.initial_vm.push(vm);
                t.voltage_bound_active.push(load & 1 == 1);
                tables.bus_ids.push(Identity(tables.n_buses));
                tables.n_buses += 1;
            }
            3 => {
                let [pmin, pmax, qmin, qmax, q, c, c0, pg, qg] = take(&mut numbers)?;
                let points = load >> 13 & 31;
                if load >> 18 != 0 || points == 1 {
                    return None;
                }
                let bus = bus(0, tables.n_buses)?;
                let t = &mut tables.generators;
                t.identities.push(Identity(t.bus_of_gen.len()));
                t.bus_of_gen.push(bus);
                t.capability_active.push(load >> 12 & 1 == 1);
                t.pmin.push(pmin);
                t.pmax.push(pmax);
                t.qmin.push(qmin);
                t.qmax.push(qmax);
                t.q.push(q);
                t.c.push(c);
                t.c0.push(c0);
                t.pg.push(pg);
                t.qg.push(qg);
                let mut curve = PiecewiseLinearCost { power: Vec::new(), value: Vec::new() };
                for _ in 0..points {
                    let [power, value] = take(&mut numbers)?;
                    curve.power.push(power);
                    curve.value.push(value);
                }
                t.piecewise_linear.push((points > 0).then_some(curve));
            }
            4 => {
                let [g, b, g_fr, b_fr, g_to, b_to, tap, shift, low, high, s_max] = take(&mut numbers)?;
                if load >> 26 != 0 {
                    return None;
                }
                let (from, to) = (bus(0, tables.n_buses)?, bus(12, tables.n_buses)?);
                let t = &mut tables.branches;
                t.identities.push(Identity(t.from_bus.len()));
                t.analysis_sources.push(AnalysisBranchSource::Other);
                t.from_bus.push(from);
                t.to_bus.push(to);
                t.angle_bound_active.push(load >> 24 & 1 == 1);
                t.thermal_limit_active.push(load >> 25 & 1 == 1);
                t.g.push(g);
                t.b.push(b);
                t.g_fr.push(g_fr);
                t.b_fr.push(b_fr);
                t.g_to.push(g_to);
                t.b_to.push(b_to);
                t.tap.push(tap);
                t.shift.push(shift);
                t.angle_min.push(low);
                t.angle_max.push(high);
                t.s_max.push(s_max);
            }
            5 => {
                if load >> 12 != 0 {
                    return None;
                }
                tables.reference_buses.push(bus(0, tables.n_buses)?);
            }
            _ => return None,
        }
    }
    numbers.next().is_none().then(|| AcOpfInstance::new(tables))
}

fn take<const N: usize>(numbers: &mut impl Iterator<Item = f64>) -> Option<[f64; N]> {
    let mut record = [0.0; N];
    for number in &mut record {
        *number = numbers.next()?;
    }
    Some(record)
}
