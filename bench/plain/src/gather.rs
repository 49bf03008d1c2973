//! From the logs of an execution to the least run that has them as its lines.

use crate::chart::{Chart, Queues};

/// For each logged event the last one of another log that comes before it: for an input its output,
/// for an output that of the message that is taken before its own, or last where its own is not.
fn links(chart: &Chart, queues: Queues, logs: &[Vec<usize>]) -> Vec<Option<usize>> {
    let mut links = vec![None; chart.events.len()];
    let mut taken = vec![false; chart.events.len()];
    let mut last = vec![None; chart.queue_count(queues)];
    for e in logs.iter().flatten().copied() {
        if !chart.is_output(e) {
            let s = chart.events[e].partner;
            links[e] = Some(s);
            links[s] = last[chart.queue(s, queues)].replace(s);
            taken[s] = true;
        }
    }
    for e in logs.iter().flatten().copied() {
        if chart.is_output(e) && !taken[e] {
            links[e] = last[chart.queue(e, queues)];
        }
    }
    links
}

/// The least run that has these logs as its lines, which some run has.
pub fn gather(chart: &Chart, queues: Queues, logs: &[Vec<usize>]) -> Vec<usize> {
    let links = links(chart, queues, logs);
    let mut heads = vec![0; logs.len()];
    let mut done = vec![false; chart.events.len()];
    let count = logs.iter().map(Vec::len).sum();
    let mut run = Vec::with_capacity(count);
    while run.len() < count {
        let left = logs.iter().zip(&heads).filter_map(|(log, head)| log.get(*head).copied());
        let e = left.filter(|e| links[*e].is_none_or(|link| done[link])).min().expect("a run");
        heads[chart.events[e].line] += 1;
        done[e] = true;
        run.push(e);
    }
    run
}
