//! Queues as rows of sequentially consistent words: a claim word, a clock word, and for each place
//! an entry and a clock. No lists are kept beside the words.

use std::sync::atomic::{AtomicU64, Ordering::SeqCst};
use std::sync::Arc;

/// What stands at a place.
pub enum Entry {
    Message(u32, u32),
    Ended(u32),
}

/// The words of a queue.
pub struct Row(Box<[AtomicU64]>);

impl Row {
    fn new(places: usize) -> Row {
        Row((0..2 * places + 2).map(|_| AtomicU64::new(0)).collect())
    }

    fn entry(&self, place: usize) -> Option<Entry> {
        let word = self.0.get(2 * place + 2)?.load(SeqCst);
        let half = word / 2;
        match word {
            0 => None,
            _ if word % 2 == 1 => Some(Entry::Message((half >> 32) as u32, half as u32)),
            _ => Some(Entry::Ended(half as u32 - 1)),
        }
    }
}

/// The end of a sender.
pub struct Outlet {
    row: Arc<Row>,
    sender: u32,
    pub left: u32,
}

impl Outlet {
    pub fn send(&mut self, m: u32, clock: u64) -> Option<(usize, u64)> {
        if self.left == 0 || clock == u64::MAX {
            return None;
        }
        self.left -= 1;
        let words = &self.row.0;
        words[1].fetch_max(clock + 1, SeqCst);
        let place = words[0].fetch_add(1, SeqCst) as usize;
        let clock = words[1].load(SeqCst);
        words[2 * place + 3].store(clock, SeqCst);
        words[2 * place + 2].store(1 + 2 * (u64::from(self.sender) << 32 | u64::from(m)), SeqCst);
        Some((place, clock))
    }

    pub fn close(&mut self) {
        let words = &self.row.0;
        let place = words[0].fetch_add(1, SeqCst) as usize;
        words[2 * place + 2].store(2 * (u64::from(self.sender) + 1), SeqCst);
    }
}

/// The end of the receiver.
pub struct Inlet {
    row: Arc<Row>,
    pub next: usize,
    pub unended: u32,
}

impl Inlet {
    pub fn take(&mut self, clock: u64) -> Option<(Entry, u64)> {
        let entry = self.row.entry(self.next)?;
        let mut found = clock;
        match entry {
            Entry::Message(..) => found = clock.max(self.row.0[2 * self.next + 3].load(SeqCst)),
            Entry::Ended(_) => self.unended -= 1,
        }
        self.next += 1;
        Some((entry, found))
    }
}

/// The ends of a new queue: an outlet for each quota, and the inlet.
pub fn queue(quotas: &[u32]) -> (Vec<Outlet>, Inlet) {
    let places: u32 = quotas.iter().map(|quota| quota + 1).sum();
    let row = Arc::new(Row::new(places as usize));
    let outlet = |(sender, left): (usize, &u32)| Outlet {
        row: row.clone(),
        sender: sender as u32,
        left: *left,
    };
    let outlets = quotas.iter().enumerate().map(outlet).collect();
    (outlets, Inlet { row, next: 0, unended: quotas.len() as u32 })
}

/// What the senders of a queue put, of each what was taken and then what is left.
pub type Accounts = Vec<(Vec<u32>, Vec<u32>)>;

impl Inlet {
    /// The accounts of all senders, once nobody sends any more.
    pub fn settle(self, senders: usize) -> Accounts {
        let mut accounts: Accounts = vec![Default::default(); senders];
        for place in 0..self.row.0[0].load(SeqCst) as usize {
            if let Some(Entry::Message(sender, m)) = self.row.entry(place) {
                let (taken, left) = &mut accounts[sender as usize];
                let list = if place < self.next { taken } else { left };
                list.push(m);
            }
        }
        accounts
    }
}
