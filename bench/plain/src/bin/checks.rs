//! Does what `msc check` does, in plain Rust: reads a chart's text from standard input and prints
//! its verdict and each race, the first of them with a run that shows it. It is the yardstick of
//! `bench/checks` and `bench/shown_runs`.
//!
//! Two words: `pair`, `mailbox` or `single`, and how many races get a run, by default all. The exit
//! status is 0 for `pass`, 1 for races, and 2 for a text that is no chart.

use plain::chart::{Chart, Queues};
use plain::draft::{parse, Draft, Signal, TEXT_LIMIT};
use plain::order::{races, Order};
use plain::run::Runs;
use plain::writing::{signals, write_event};
use std::env;
use std::io::{self, BufWriter, Read, Write};
use std::process::ExitCode;

/// The lines `run` of races, each made once for all races of one event.
struct RunLines<'a> {
    runs: Runs<'a>,
    /// Each event's number behind a space, in eight bytes, and how many of these it has.
    numbers: Vec<([u8; 8], usize)>,
    /// The event whose line was made last.
    of: Option<u32>,
    line: Vec<u8>,
}

/// The number of an event behind a space, and its length.
fn number(e: usize) -> ([u8; 8], usize) {
    let text = format!(" {e}");
    let mut bytes = [0; 8];
    bytes[..text.len()].copy_from_slice(text.as_bytes());
    (bytes, text.len())
}

impl<'a> RunLines<'a> {
    fn new(runs: Runs<'a>, count: usize) -> RunLines<'a> {
        RunLines {
            runs,
            numbers: (0..count).map(number).collect(),
            of: None,
            line: Vec::new(),
        }
    }

    /// The line of the chosen run of `e`.
    fn line(&mut self, e: u32) -> &[u8] {
        if self.of != Some(e) {
            self.of = Some(e);
            self.line.clear();
            self.line.extend_from_slice(b"run");
            // what a number has too much is written over by the next
            self.line.resize(3 + 8 * self.numbers.len(), 0);
            let (line, numbers) = (&mut self.line, &self.numbers);
            let mut at = 3;
            self.runs.chosen(e as usize, |x| {
                let (bytes, length) = &numbers[x];
                line[at..at + 8].copy_from_slice(bytes);
                at += length;
            });
            self.line.truncate(at);
            self.line.push(b'\n');
        }
        &self.line
    }
}

/// What is printed of each event in the line of a race, in one list of bytes.
struct Texts {
    bytes: Vec<u8>,
    /// Where three texts of each event begin, and where the last of them ends: its number; what
    /// stands behind both numbers of a race of which it is the first event; what it does as the
    /// second.
    starts: Vec<[u32; 4]>,
}

impl Texts {
    fn new(draft: &Draft) -> Texts {
        let signals = signals(draft);
        let mut texts = Texts {
            bytes: Vec::new(),
            starts: Vec::with_capacity(signals.len()),
        };
        for (e, (line, signal)) in signals.into_iter().enumerate() {
            texts.put(e, line, signal).expect("a list takes all bytes");
        }
        texts
    }

    fn put(&mut self, e: usize, line: &[u8], signal: &Signal) -> io::Result<()> {
        let bytes = &mut self.bytes;
        let number = bytes.len();
        write!(bytes, "{e}")?;
        let lead = bytes.len();
        bytes.extend_from_slice(b" on ");
        bytes.extend_from_slice(line);
        bytes.extend_from_slice(b": ");
        let does = bytes.len();
        write_event(bytes, signal)?;
        let text = does..bytes.len();
        bytes.extend_from_slice(b"; ");
        let second = bytes.len();
        bytes.extend_from_within(text);
        bytes.push(b'\n');
        self.starts.push([
            number as u32,
            lead as u32,
            second as u32,
            bytes.len() as u32,
        ]);
        Ok(())
    }

    fn number(&self, e: u32) -> &[u8] {
        let [start, end, ..] = self.starts[e as usize];
        &self.bytes[start as usize..end as usize]
    }

    /// What stands between the numbers of a race and what its second event does.
    fn lead(&self, e: u32) -> &[u8] {
        let [_, start, end, _] = self.starts[e as usize];
        &self.bytes[start as usize..end as usize]
    }

    fn second(&self, f: u32) -> &[u8] {
        let [_, _, start, end] = self.starts[f as usize];
        &self.bytes[start as usize..end as usize]
    }
}

/// How many bytes go out at once.
const PAGE: usize = 65_536;

/// Prints the verdict and each race, so many of them with a run; answers whether there is none.
fn check(
    draft: &Draft,
    chart: &Chart,
    queues: Queues,
    show: u32,
    out: &mut impl Write,
) -> io::Result<bool> {
    let order = Order::enforced(chart, queues);
    let races = races(chart, &order);
    out.write_all(b"chart ")?;
    out.write_all(draft.name)?;
    writeln!(out, "\nqueues {}", queues.word())?;
    if races.is_empty() {
        writeln!(out, "pass")?;
        return Ok(true);
    }
    writeln!(out, "races {}", races.len())?;
    let texts = Texts::new(draft);
    let mut page = Vec::with_capacity(2 * PAGE);
    let mut lines = RunLines::new(Runs::new(chart, &order, queues), chart.events.len());
    for (place, (e, f)) in races.into_iter().enumerate() {
        page.extend_from_slice(b"race ");
        page.extend_from_slice(texts.number(e));
        page.push(b' ');
        page.extend_from_slice(texts.number(f));
        page.extend_from_slice(texts.lead(e));
        page.extend_from_slice(texts.second(f));
        if place < show as usize {
            page.extend_from_slice(lines.line(e));
        }
        if page.len() >= PAGE {
            out.write_all(&page)?;
            page.clear();
        }
    }
    out.write_all(&page)?;
    Ok(false)
}

fn read_and_check(queues: Queues, show: u32) -> io::Result<Option<bool>> {
    let mut text = Vec::new();
    let limit = TEXT_LIMIT as u64 + 1;
    io::stdin().lock().take(limit).read_to_end(&mut text)?;
    let Ok(draft) = parse(&text) else {
        return Ok(None);
    };
    let Some(chart) = Chart::build(&draft) else {
        return Ok(None);
    };
    let mut out = BufWriter::new(io::stdout().lock());
    let passed = check(&draft, &chart, queues, show, &mut out)?;
    out.flush()?;
    Ok(Some(passed))
}

fn main() -> ExitCode {
    let Some(queues) = env::args().nth(1).and_then(|word| Queues::of(&word)) else {
        return ExitCode::from(2);
    };
    let show = match env::args().nth(2).map(|word| word.parse()) {
        None => u32::MAX,
        Some(Ok(show)) => show,
        Some(Err(_)) => return ExitCode::from(2),
    };
    match read_and_check(queues, show) {
        Ok(Some(passed)) => ExitCode::from(u8::from(!passed)),
        Ok(None) => ExitCode::from(2),
        Err(_) => ExitCode::from(4),
    }
}
