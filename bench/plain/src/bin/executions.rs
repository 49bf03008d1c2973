//! Does what `msc run` does, in plain Rust: reads a chart's text from standard input, runs it with
//! a thread for each instance over queues as rows of words, settles the queues, gathers the logs,
//! and prints how each instance ended and the trace. It is the yardstick of `bench/executions`.
//!
//! One word: `pair`, `mailbox` or `single`. The exit status is 0 where all instances finished, 3
//! where one has not, and 2 for a text that is no chart.

use plain::chart::{Chart, Queues};
use plain::draft::{parse, Draft, TEXT_LIMIT};
use plain::gather::gather;
use plain::rows::{queue, Accounts, Entry, Inlet, Outlet};
use plain::writing::{signals, write_event};
use std::hint::black_box;
use std::io::{self, BufWriter, Read, Write};
use std::ops::Range;
use std::process::ExitCode;
use std::{env, thread};

/// How many empty rounds an instance bears.
const PATIENCE: u32 = 1_000_000_000;

/// How many empty rounds in a row it turns before it gives the processor away.
const TURNS: u32 = 64;

/// A chart under an architecture, with the input of each message.
struct Wired {
    chart: Chart,
    queues: Queues,
    lines: Vec<Range<usize>>,
    inputs: Vec<usize>,
}

impl Wired {
    fn new(chart: Chart, queues: Queues, instances: usize) -> Wired {
        let mut lines = vec![0..0; instances];
        let mut inputs = vec![0; chart.events.len() / 2];
        for (e, event) in chart.events.iter().enumerate() {
            if lines[event.line].is_empty() {
                lines[event.line] = e..event.line_end;
            }
            if !chart.is_output(e) {
                inputs[event.message] = e;
            }
        }
        Wired { chart, queues, lines, inputs }
    }
}

/// The ends of an instance, ascending by the numbers of their queues.
#[derive(Default)]
struct Ends {
    outlets: Vec<(usize, Outlet)>,
    inlets: Vec<(usize, Inlet)>,
}

/// Fresh ends for each instance, and how many senders each queue has.
fn wire(wired: &Wired) -> (Vec<Ends>, Vec<usize>) {
    let chart = &wired.chart;
    let mut counts = vec![vec![0; wired.lines.len()]; chart.queue_count(wired.queues)];
    let mut receivers = vec![0; counts.len()];
    for s in (0..chart.events.len()).filter(|s| chart.is_output(*s)) {
        let q = chart.queue(s, wired.queues);
        counts[q][chart.events[s].line] += 1;
        receivers[q] = chart.events[chart.events[s].partner].line;
    }
    let mut ends: Vec<Ends> = wired.lines.iter().map(|_| Ends::default()).collect();
    let mut senders = vec![0; counts.len()];
    for (q, counts) in counts.iter().enumerate() {
        let own: Vec<usize> = (0..counts.len()).filter(|i| counts[*i] > 0).collect();
        if own.is_empty() {
            continue;
        }
        let quotas: Vec<u32> = own.iter().map(|i| counts[*i]).collect();
        let (outlets, inlet) = queue(&quotas);
        senders[q] = own.len();
        for (i, outlet) in own.into_iter().zip(outlets) {
            ends[i].outlets.push((q, outlet));
        }
        ends[receivers[q]].inlets.push((q, inlet));
    }
    (ends, senders)
}

/// How an instance ended.
type End = &'static str;

/// What an instance leaves: its log, its inlets, and how it ended.
type Left = (Vec<usize>, Vec<(usize, Inlet)>, End);

/// Runs an instance.
fn run(wired: &Wired, line: Range<usize>, mut ends: Ends) -> Left {
    let chart = &wired.chart;
    let mut log = Vec::with_capacity(line.len());
    let mut logged = vec![false; line.len()];
    let (mut next, mut first, mut clock, mut empty) = (line.start, line.start, 0, 0);
    let end = loop {
        while next < line.end {
            if !chart.is_output(next) {
                next += 1;
                continue;
            }
            while first < line.end && logged[first - line.start] {
                first += 1;
            }
            if first < chart.events[next].segment_start {
                break;
            }
            let q = chart.queue(next, wired.queues);
            let at = ends.outlets.partition_point(|outlet| outlet.0 < q);
            let message = chart.events[next].message as u32;
            clock = ends.outlets[at].1.send(message, clock).expect("room").1;
            log.push(next);
            logged[next - line.start] = true;
            next += 1;
        }
        if next == line.end {
            ends.outlets.drain(..).for_each(|(_, mut outlet)| outlet.close());
        }
        if log.len() == line.len() {
            break "finished";
        }
        if ends.inlets.iter().all(|(_, inlet)| inlet.unended == 0) {
            break "starved";
        }
        if empty == PATIENCE {
            break "impatient";
        }
        let before = empty;
        empty += 1;
        for (_, inlet) in &mut ends.inlets {
            let Some((entry, now)) = inlet.take(clock) else { continue };
            empty = 0;
            if let Entry::Message(_, m) = entry {
                let e = wired.inputs[m as usize];
                clock = now;
                log.push(e);
                logged[e - line.start] = true;
            }
        }
        if empty > TURNS && before < empty {
            thread::yield_now();
        }
    };
    ends.outlets.drain(..).for_each(|(_, mut outlet)| outlet.close());
    (log, ends.inlets, end)
}

/// Runs all instances and settles all queues; answers what each logged, and how it ended.
fn execution(wired: &Wired) -> (Vec<Vec<usize>>, Vec<End>) {
    let (ends, senders) = wire(wired);
    let left: Vec<Left> = thread::scope(|scope| {
        let start = |(line, ends)| scope.spawn(move || run(wired, line, ends));
        let threads: Vec<_> = wired.lines.iter().cloned().zip(ends).map(start).collect();
        threads.into_iter().map(|thread| thread.join().expect("an instance")).collect()
    });
    let mut settled: Vec<(usize, Accounts)> = Vec::new();
    let (mut logs, mut how) = (Vec::new(), Vec::new());
    for (log, inlets, end) in left {
        logs.push(log);
        how.push(end);
        settled.extend(inlets.into_iter().map(|(q, inlet)| (q, inlet.settle(senders[q]))));
    }
    settled.sort_by_key(|queue| queue.0);
    black_box(settled);
    (logs, how)
}

/// Prints how each instance ended, and the trace.
fn print(draft: &Draft, queues: Queues, ends: &[End], trace: &[usize]) -> io::Result<()> {
    let mut out = BufWriter::with_capacity(65_536, io::stdout().lock());
    out.write_all(b"chart ")?;
    out.write_all(draft.name)?;
    writeln!(out, "\nqueues {}", queues.word())?;
    for (section, end) in draft.sections.iter().zip(ends) {
        out.write_all(b"instance ")?;
        out.write_all(section.decl.name)?;
        writeln!(out, " {end}")?;
    }
    writeln!(out, "trace {}", trace.len())?;
    let signals = signals(draft);
    for e in trace {
        let (line, signal) = signals[*e];
        write!(out, "{e} ")?;
        out.write_all(line)?;
        out.write_all(b" ")?;
        write_event(&mut out, signal)?;
        out.write_all(b"\n")?;
    }
    out.flush()
}

/// Runs the chart on standard input; answers whether all instances finished, and nothing where
/// there is no chart.
fn read_and_run(queues: Queues) -> io::Result<Option<bool>> {
    let mut text = Vec::new();
    let limit = TEXT_LIMIT as u64 + 1;
    io::stdin().lock().take(limit).read_to_end(&mut text)?;
    let Ok(draft) = parse(&text) else {
        return Ok(None);
    };
    let Some(chart) = Chart::build(&draft) else {
        return Ok(None);
    };
    let wired = Wired::new(chart, queues, draft.sections.len());
    let (logs, ends) = execution(&wired);
    let trace = gather(&wired.chart, queues, &logs);
    print(&draft, queues, &ends, &trace)?;
    Ok(Some(ends.iter().all(|end| *end == "finished")))
}

fn main() -> ExitCode {
    let Some(queues) = env::args().nth(1).and_then(|word| Queues::of(&word)) else {
        return ExitCode::from(2);
    };
    match read_and_run(queues) {
        Ok(Some(true)) => ExitCode::SUCCESS,
        Ok(Some(false)) => ExitCode::from(3),
        Ok(None) => ExitCode::from(2),
        Err(_) => ExitCode::from(4),
    }
}
