//! Does what `msc_bench queues` does, in plain Rust with the same atomic steps (`rows.rs`). Senders
//! go through queues one after the other, each in a thread of its own, and put their shares of
//! 1,024 messages and an end mark; one thread takes, queue by queue, until all senders have ended.
//! It keeps no lists beside the words. It is one yardstick of `bench/queues`.

use plain::rows::{queue, Entry, Inlet, Outlet};
use std::env;
use std::thread;
use std::time::Instant;

/// How many messages a queue may have.
const MOST_MESSAGES: u32 = 1024;

/// Puts a share of the messages into each queue, and closes.
fn send_all(outlets: Vec<Outlet>) {
    for mut outlet in outlets {
        for m in 0..outlet.left {
            let _ = std::hint::black_box(outlet.send(m, 0));
        }
        outlet.close();
    }
}

/// Takes all messages of a queue, and answers how many there were.
fn take_all(mut inlet: Inlet) -> u64 {
    let mut taken = 0;
    while inlet.unended > 0 {
        match inlet.take(0) {
            Some((Entry::Message(sender, m), clock)) => {
                std::hint::black_box((sender, m, clock));
                taken += 1;
            }
            Some((Entry::Ended(sender), _)) => {
                std::hint::black_box(sender);
            }
            None => thread::yield_now(),
        }
    }
    taken
}

fn main() {
    let mut words = env::args().skip(1);
    let mut number = || words.next().expect("a word").parse::<u32>().expect("a number");
    let (count, queues) = (number(), number());
    let share = MOST_MESSAGES / count;
    let mut senders: Vec<Vec<Outlet>> = (0..count).map(|_| Vec::new()).collect();
    let mut inlets = Vec::new();
    for _ in 0..queues {
        let (outlets, inlet) = queue(&vec![share; count as usize]);
        for (own, outlet) in senders.iter_mut().zip(outlets) {
            own.push(outlet);
        }
        inlets.push(inlet);
    }
    let start = Instant::now();
    let taken: u64 = thread::scope(|scope| {
        for outlets in senders {
            scope.spawn(move || send_all(outlets));
        }
        inlets.into_iter().map(take_all).sum()
    });
    let time = start.elapsed().as_nanos();
    println!("{taken} messages");
    eprintln!("{time} nanoseconds");
}
