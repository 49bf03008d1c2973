//! Does what `msc_bench` does, in plain Rust: makes a chart's orders and races, rows of bits
//! closed along a linear order of the events. It is the yardstick of `bench/orders`.
//!
//! Words: a phase and a count. What stands before the phase is done once, the phase as often as the
//! count says, and at least once. A number that every part of the phase's answer goes into is
//! printed.

use plain::chart::{Chart, Queues};
use plain::draft::{parse, Draft};
use plain::order::{races, Order};
use std::hint::black_box;
use std::io::Read;
use std::{env, io};

/// Makes something so many times; answers the last.
fn often<T>(count: u32, make: impl Fn() -> T) -> T {
    for _ in 1..count {
        black_box(make());
    }
    make()
}

/// A number that all parts go into, by the hash of Fowler, Noll and Vo (FNV-1a), a word at a time.
fn digest(parts: impl Iterator<Item = u64>) -> u64 {
    parts.fold(14_695_981_039_346_656_037, |number, part| {
        (number ^ part).wrapping_mul(1_099_511_628_211)
    })
}

/// The number of a draft: how many items each section has.
fn parsed(draft: &Draft) -> u64 {
    digest(
        draft
            .sections
            .iter()
            .map(|section| section.items.len() as u64),
    )
}

/// The number of a chart: the message of each event.
fn built(chart: &Chart) -> u64 {
    digest(chart.events.iter().map(|event| event.message as u64))
}

/// The number of an order: all its rows.
fn ordered(chart: &Chart, order: &Order) -> u64 {
    let rows = (0..chart.events.len()).map(|e| order.row(e));
    digest(rows.flatten().copied())
}

/// The number of a list of races.
fn listed(races: &[(u32, u32)]) -> u64 {
    digest(
        races
            .iter()
            .flat_map(|&(e, f)| [u64::from(e), u64::from(f)]),
    )
}

fn chart_of(text: &[u8]) -> Chart {
    let draft = parse(text).ok().expect("a draft");
    Chart::build(&draft).expect("a chart")
}

fn enforced_often(text: &[u8], queues: Queues, count: u32) -> u64 {
    let chart = chart_of(text);
    let order = often(count, || Order::enforced(&chart, queues));
    ordered(&chart, &order)
}

fn races_often(text: &[u8], queues: Queues, count: u32) -> u64 {
    let chart = chart_of(text);
    let order = Order::enforced(&chart, queues);
    listed(&often(count, || races(&chart, &order)))
}

/// Goes through a phase, and answers the number of its answer.
fn go_through(text: &[u8], phase: &str, count: u32) -> u64 {
    match phase {
        "parse" => parsed(&often(count, || parse(text).ok().expect("a draft"))),
        "build" => {
            let draft = parse(text).ok().expect("a draft");
            built(&often(count, || Chart::build(&draft).expect("a chart")))
        }
        "visual" => {
            let chart = chart_of(text);
            ordered(&chart, &often(count, || Order::visual(&chart)))
        }
        "enforced-pair" => enforced_often(text, Queues::Pair, count),
        "enforced-mailbox" => enforced_often(text, Queues::Mailbox, count),
        "races-pair" => races_often(text, Queues::Pair, count),
        "races-mailbox" => races_often(text, Queues::Mailbox, count),
        _ => panic!("no such phase"),
    }
}

fn main() {
    let mut words = env::args().skip(1);
    let phase = words.next().expect("a phase");
    let count = words.next().expect("a count").parse().expect("a number");
    let mut text = Vec::new();
    io::stdin().lock().read_to_end(&mut text).expect("a text");
    println!("{}", go_through(&text, &phase, count));
}
