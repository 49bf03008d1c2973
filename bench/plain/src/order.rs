//! Orders of a chart's events as rows of bits, and races.

use crate::chart::{Chart, Queues};

/// An order of a chart's events: for each event a row with a bit for each event that comes after
/// it.
pub struct Order {
    stride: usize,
    words: Vec<u64>,
}

/// The bit of number `f` in its word.
fn bit(f: usize) -> u64 {
    1 << (f % 64)
}

impl Order {
    /// So many rows with a bit for each of so many numbers, none of which is set.
    fn blank(rows: usize, numbers: usize) -> Order {
        let stride = numbers.div_ceil(64);
        let words = vec![0; rows * stride];
        Order { stride, words }
    }

    pub fn row(&self, e: usize) -> &[u64] {
        &self.words[e * self.stride..][..self.stride]
    }

    fn put(&mut self, e: usize, f: usize) {
        self.words[e * self.stride + f / 64] |= bit(f);
    }

    /// Row `e` takes in row `f`, another one.
    fn take_in(&mut self, e: usize, f: usize) {
        let row = |e: usize| e * self.stride..(e + 1) * self.stride;
        let rows = self.words.get_disjoint_mut([row(e), row(f)]);
        let [into, from] = rows.expect("two rows");
        for (word, more) in into.iter_mut().zip(from) {
            *word |= *more;
        }
    }

    /// Begins the rows of the segment of `e`, all blank, with what the line leads to.
    fn begin_segment(&mut self, chart: &Chart, inputs: bool, e: usize) {
        let next = chart.next_segment(e);
        if next.is_empty() {
            return;
        }
        for f in next {
            self.take_in(e, f);
            if inputs || chart.is_output(f) {
                self.put(e, f);
            }
        }
        for f in chart.segment(e).filter(|&f| f != e) {
            let row = e * self.stride..(e + 1) * self.stride;
            self.words.copy_within(row, f * self.stride);
        }
    }

    /// Closes blank rows under the rules of lines and messages, from the last event of a linear
    /// order back: what is drawn before an event comes before it, where `inputs` says so before
    /// each event, otherwise before each output; and an output comes before its input.
    fn close(&mut self, chart: &Chart, inputs: bool) {
        let mut begun = vec![false; chart.events.len()];
        for &e in chart.order.iter().rev() {
            if !begun[e] {
                self.begin_segment(chart, inputs, e);
                begun[chart.segment(e)].fill(true);
            }
            if chart.is_output(e) {
                let input = chart.events[e].partner;
                self.take_in(e, input);
                self.put(e, input);
            }
        }
    }

    /// Makes `taken` the inputs of the outputs in `later`, all of one queue, and what comes after
    /// them. An output that comes after another of these needs no look, for that one's input has
    /// its row.
    fn gather(&self, chart: &Chart, later: &mut [u64], taken: &mut [u64]) {
        taken.fill(0);
        for k in 0..later.len() {
            while later[k] != 0 {
                let c = 64 * k + later[k].trailing_zeros() as usize;
                let covered = &self.row(c)[k..];
                for (word, less) in later[k..].iter_mut().zip(covered) {
                    *word &= !less;
                }
                later[k] &= !bit(c);
                let input = chart.events[c].partner;
                for (word, more) in taken.iter_mut().zip(self.row(input)) {
                    *word |= more;
                }
                taken[input / 64] |= bit(input);
            }
        }
    }

    /// Adds the rule of queues to the order of lines and messages.
    fn add_queues(&mut self, chart: &Chart, queues: Queues) {
        let mut seen = Order::blank(chart.queue_count(queues), chart.events.len());
        let (mut later, mut same) = (vec![0; self.stride], vec![0; self.stride]);
        // the inputs of the outputs in `same`, which were those of the output before
        let mut taken = vec![0; self.stride];
        for &s in chart.order.iter().rev() {
            if !chart.is_output(s) {
                continue;
            }
            let q = chart.queue(s, queues);
            for ((word, after), of_queue) in later.iter_mut().zip(self.row(s)).zip(seen.row(q)) {
                *word = after & of_queue;
            }
            if later != same {
                same.copy_from_slice(&later);
                self.gather(chart, &mut later, &mut taken);
            }
            let input = chart.events[s].partner * self.stride;
            for (word, more) in self.words[input..][..self.stride].iter_mut().zip(&taken) {
                *word |= more;
            }
            seen.put(q, s);
        }
    }

    /// The visual order.
    pub fn visual(chart: &Chart) -> Order {
        let mut order = Order::blank(chart.events.len(), chart.events.len());
        order.close(chart, true);
        order
    }

    /// The order that lines, messages and queues enforce.
    pub fn enforced(chart: &Chart, queues: Queues) -> Order {
        let mut order = Order::blank(chart.events.len(), chart.events.len());
        order.close(chart, false);
        order.add_queues(chart, queues);
        order
    }
}

/// The bits of word `k` that stand for numbers from `start` up to `end`, which it has some of.
fn within(k: usize, start: usize, end: usize) -> u64 {
    let from = start.saturating_sub(64 * k);
    let past = 64 * (k + 1) - end.min(64 * (k + 1));
    (u64::MAX << from) & (u64::MAX >> past)
}

/// The pairs that are drawn in an order which `order` does not hold, ascending.
pub fn races(chart: &Chart, order: &Order) -> Vec<(u32, u32)> {
    let mut races = Vec::new();
    for (e, event) in chart.events.iter().enumerate() {
        let (start, end) = (event.segment_end, event.line_end);
        let row = order.row(e);
        for k in start / 64..end.div_ceil(64) {
            let mut gaps = !row[k] & within(k, start, end);
            while gaps != 0 {
                let f = 64 * k + gaps.trailing_zeros() as usize;
                races.push((e as u32, f as u32));
                gaps &= gaps - 1;
            }
        }
    }
    races
}
