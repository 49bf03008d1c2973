//! The run that is chosen to show the races of an event.

use crate::chart::{Chart, Queues};
use crate::order::Order;

/// A set of events, whose least is found in a few steps: a bit for each event, of which there are
/// at most 2,048, and a bit for each word that has some.
struct Ready {
    words: [u64; 32],
    some: u32,
}

impl Ready {
    fn new() -> Ready {
        Ready {
            words: [0; 32],
            some: 0,
        }
    }

    fn put(&mut self, e: usize) {
        self.words[e / 64] |= 1 << (e % 64);
        self.some |= 1 << (e / 64);
    }

    /// Takes the least number out, if there is one.
    fn take_least(&mut self) -> Option<usize> {
        if self.some == 0 {
            return None;
        }
        let k = self.some.trailing_zeros() as usize;
        let e = 64 * k + self.words[k].trailing_zeros() as usize;
        self.words[k] &= self.words[k] - 1;
        if self.words[k] == 0 {
            self.some &= self.some - 1;
        }
        Some(e)
    }
}

/// A queue of a run: the outputs that have occurred, in their order, and what waits for its turn.
#[derive(Default)]
struct Fifo {
    sent: Vec<usize>,
    taken: usize,
    /// How many outputs that are passed on have not occurred.
    expected: usize,
    /// The held outputs that might come next and wait for those.
    waiting: Vec<usize>,
}

/// Makes chosen runs of a chart, one after the other. Its lists are filled anew for each run.
pub struct Runs<'a> {
    chart: &'a Chart,
    order: &'a Order,
    /// The number of the queue of each event's message.
    queue_of: Vec<usize>,
    queues: Vec<Fifo>,
    /// For each event how many of its segment have not occurred, kept at the segment's first event.
    left: Vec<usize>,
    /// The first event of each event's segment.
    segment: Vec<usize>,
    /// The lengths of segments, at their first events, from which `left` begins.
    lengths: Vec<usize>,
    /// For each line the first event of the first segment that has not occurred whole.
    reached: Vec<usize>,
    /// The first event of each line.
    firsts: Vec<usize>,
    /// Each output, its input and its queue.
    messages: Vec<(usize, usize, usize)>,
    /// The free events, as a row of bits.
    free: [u64; 32],
    /// What may come next: of the free events those that do not wait, and of the others.
    ready: Ready,
    later: Ready,
}

impl<'a> Runs<'a> {
    pub fn new(chart: &'a Chart, order: &'a Order, queues: Queues) -> Runs<'a> {
        let count = chart.events.len();
        let output = |e: usize| {
            if chart.is_output(e) {
                e
            } else {
                chart.events[e].partner
            }
        };
        let mut segment = Vec::with_capacity(count);
        let mut lengths = vec![0; count];
        let mut firsts = Vec::new();
        while segment.len() < count {
            let start = segment.len();
            let event = &chart.events[start];
            if start == 0 || chart.events[start - 1].line != event.line {
                firsts.push(start);
            }
            lengths[start] = event.segment_end - start;
            segment.resize(event.segment_end, start);
        }
        let messages = (0..count)
            .filter(|&s| chart.is_output(s))
            .map(|s| (s, chart.events[s].partner, chart.queue(s, queues)))
            .collect();
        Runs {
            chart,
            order,
            queue_of: (0..count).map(|e| chart.queue(output(e), queues)).collect(),
            queues: (0..chart.queue_count(queues))
                .map(|_| Fifo::default())
                .collect(),
            left: lengths.clone(),
            lengths,
            segment,
            reached: vec![0; chart.queue_count(Queues::Mailbox)],
            firsts,
            messages,
            free: [0; 32],
            ready: Ready::new(),
            later: Ready::new(),
        }
    }

    fn is_free(&self, e: usize) -> bool {
        self.free[e / 64] >> (e % 64) & 1 == 1
    }

    /// The event may come next now.
    fn allow(&mut self, e: usize) {
        if !self.is_free(e) {
            self.later.put(e);
            return;
        }
        let is_held = self.chart.is_output(e) && !self.is_free(self.chart.events[e].partner);
        let queue = &mut self.queues[self.queue_of[e]];
        if is_held && queue.expected > 0 {
            queue.waiting.push(e);
        } else {
            self.ready.put(e);
        }
    }

    /// Allows the outputs of the segment that starts here, and notes that its line has reached it.
    fn reach(&mut self, start: usize) {
        let event = &self.chart.events[start];
        self.reached[event.line] = start;
        for e in start..event.segment_end {
            if self.chart.is_output(e) {
                self.allow(e);
            }
        }
    }

    /// One event less is left in the segment of an event; where a line is through with its segment,
    /// it goes on to the next one that has events left.
    fn pass(&mut self, e: usize) {
        let mut start = self.segment[e];
        self.left[start] -= 1;
        let event = &self.chart.events[e];
        if self.reached[event.line] != start {
            return;
        }
        while self.left[start] == 0 {
            start = self.chart.events[start].segment_end;
            if start == event.line_end {
                return;
            }
        }
        if start != self.reached[event.line] {
            self.reach(start);
        }
    }

    /// An output occurs: its message goes into its queue.
    fn send(&mut self, s: usize) {
        let input = self.chart.events[s].partner;
        let is_expected = self.is_free(s) && self.is_free(input);
        let queue = &mut self.queues[self.queue_of[s]];
        queue.sent.push(s);
        let is_first = queue.sent.len() == queue.taken + 1;
        if is_expected {
            queue.expected -= 1;
            if queue.expected == 0 {
                for held in queue.waiting.drain(..) {
                    self.ready.put(held);
                }
            }
        }
        if is_first {
            self.allow(input);
        }
    }

    /// An input occurs: the next message of its queue may be taken.
    fn take(&mut self, r: usize) {
        let queue = &mut self.queues[self.queue_of[r]];
        queue.taken += 1;
        if let Some(&s) = queue.sent.get(queue.taken) {
            self.allow(self.chart.events[s].partner);
        }
    }

    /// Blanks everything for the run of `e`.
    fn start(&mut self, e: usize) {
        for queue in &mut self.queues {
            queue.sent.clear();
            queue.taken = 0;
            queue.expected = 0;
        }
        for (free, row) in self.free.iter_mut().zip(self.order.row(e)) {
            *free = !row;
        }
        self.free[e / 64] &= !(1 << (e % 64));
        for k in 0..self.messages.len() {
            let (s, input, queue) = self.messages[k];
            self.queues[queue].expected += usize::from(self.is_free(s) && self.is_free(input));
        }
        self.left.copy_from_slice(&self.lengths);
        for k in 0..self.firsts.len() {
            self.reach(self.firsts[k]);
        }
    }

    /// Puts all events in the order of the chosen run of `e`.
    pub fn chosen(&mut self, e: usize, mut put: impl FnMut(usize)) {
        self.start(e);
        // all free events come first, since only `later` has others
        while let Some(x) = self.ready.take_least().or_else(|| self.later.take_least()) {
            put(x);
            if self.chart.is_output(x) {
                self.send(x);
            } else {
                self.take(x);
            }
            self.pass(x);
        }
    }
}
