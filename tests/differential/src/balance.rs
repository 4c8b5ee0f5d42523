//! Makes a point balance: the demands become what the flows leave over.

use crate::networks::Net;
use oracle::Network;

/// The check's own objective at the point; nothing where the network is refused by the text or the point has a wrong form.
pub fn balance(net: &mut Net, x: &[f64]) -> Option<f64> {
    let Network::Compiled(compiled) = oracle::network(&net.words(), &net.numbers()) else {
        return None;
    };
    let answer = compiled.outcome(x, 0.0)?;
    let (n, m) = (net.buses.len(), net.branches.len());
    let mut left = answer.outputs[..2 * n].to_vec();
    for (b, branch) in net.branches.iter().enumerate() {
        let flow = |part: usize| answer.outputs[2 * n + part * m + b];
        left[branch.from] -= flow(0);
        left[n + branch.from] -= flow(1);
        left[branch.to] -= flow(2);
        left[n + branch.to] -= flow(3);
    }
    for (i, bus) in net.buses.iter_mut().enumerate() {
        for part in 0..2 {
            let demand = bus.numbers[part] + left[part * n + i];
            if demand.is_finite() {
                bus.numbers[part] = demand;
            }
        }
    }
    Some(answer.objective)
}
