//! Does what `msc_bench queues` does, in plain Rust over `std::sync::mpsc::sync_channel`: senders
//! go through queues one after the other, each in a thread of its own, and put their shares of
//! 1,024 messages; one thread takes, queue by queue, until all senders have ended. It is one
//! yardstick of `bench/queues`.

use std::env;
use std::sync::mpsc::{sync_channel, Receiver, SyncSender, TryRecvError};
use std::thread;
use std::time::Instant;

/// How many messages a queue may have.
const MOST_MESSAGES: u32 = 1024;

/// A message with the number of its sender.
type Message = (u32, u32);

/// Puts a share of the messages into each queue, and ends by dropping the sender.
fn send_all(number: u32, share: u32, outlets: Vec<SyncSender<Message>>) {
    for outlet in outlets {
        for m in 0..share {
            outlet.send((number, m)).expect("the receiver is there");
        }
    }
}

/// Takes all messages of a queue, and answers how many there were.
fn take_all(inlet: Receiver<Message>) -> u64 {
    let mut taken = 0;
    loop {
        match inlet.try_recv() {
            Ok(_) => taken += 1,
            Err(TryRecvError::Empty) => thread::yield_now(),
            Err(TryRecvError::Disconnected) => return taken,
        }
    }
}

fn main() {
    let mut words = env::args().skip(1);
    let mut number = || words.next().expect("a word").parse::<u32>().expect("a number");
    let (count, queues) = (number(), number());
    let mut senders: Vec<Vec<SyncSender<Message>>> = (0..count).map(|_| Vec::new()).collect();
    let mut inlets = Vec::new();
    for _ in 0..queues {
        let (outlet, inlet) = sync_channel(MOST_MESSAGES as usize);
        for own in &mut senders {
            own.push(outlet.clone());
        }
        inlets.push(inlet);
    }
    let start = Instant::now();
    let taken: u64 = thread::scope(|scope| {
        for (number, outlets) in senders.into_iter().enumerate() {
            scope.spawn(move || send_all(number as u32, MOST_MESSAGES / count, outlets));
        }
        inlets.into_iter().map(take_all).sum()
    });
    let time = start.elapsed().as_nanos();
    println!("{taken} messages");
    eprintln!("{time} nanoseconds");
}
