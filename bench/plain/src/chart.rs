//! From a draft to its chart: events by number, from 0, in the order of the text.

use crate::draft::{Draft, Item, Name, Section, Signal, Way};
use std::collections::HashMap;
use std::hash::{BuildHasherDefault, Hasher};
use std::ops::Range;

/// The most instances of a chart.
const MOST_INSTANCES: usize = 32;

/// The most messages of a chart.
const MOST_MESSAGES: usize = 1024;

/// Which messages share a queue.
#[derive(Clone, Copy)]
pub enum Queues {
    /// Those of one sender to one receiver.
    Pair,
    /// Those to one receiver.
    Mailbox,
    /// None: each has one of its own.
    Single,
}

impl Queues {
    /// The architecture of this word.
    pub fn of(word: &str) -> Option<Queues> {
        match word {
            "pair" => Some(Queues::Pair),
            "mailbox" => Some(Queues::Mailbox),
            "single" => Some(Queues::Single),
            _ => None,
        }
    }

    pub fn word(self) -> &'static str {
        match self {
            Queues::Pair => "pair",
            Queues::Mailbox => "mailbox",
            Queues::Single => "single",
        }
    }
}

pub struct Event {
    pub way: Way,
    /// The number of its instance.
    pub line: usize,
    /// The other end of its message.
    pub partner: usize,
    pub message: usize,
    /// The first number of its segment: the event alone, or the coregion that it is in.
    pub segment_start: usize,
    /// The number past its segment.
    pub segment_end: usize,
    /// The number past the events of its line.
    pub line_end: usize,
}

pub struct Chart {
    pub events: Vec<Event>,
    /// All events, each behind whatever precedes it in the visual order.
    pub order: Vec<usize>,
    instances: usize,
}

/// What both ends of a message have in common: sender, receiver, and its names.
type Key<'a> = (u32, u32, Name<'a>, Option<Name<'a>>);

/// A hasher for short keys, eight bytes at a time.
#[derive(Default)]
struct Mixer(u64);

impl Mixer {
    fn mix(&mut self, word: u64) {
        self.0 = (self.0.rotate_left(5) ^ word).wrapping_mul(0x517c_c1b7_2722_0a95);
    }
}

impl Hasher for Mixer {
    fn write(&mut self, bytes: &[u8]) {
        let (words, rest) = bytes.as_chunks::<8>();
        for word in words {
            self.mix(u64::from_le_bytes(*word));
        }
        if !rest.is_empty() {
            let mut last = [0; 8];
            last[..rest.len()].copy_from_slice(rest);
            self.mix(u64::from_le_bytes(last));
        }
    }

    fn write_u8(&mut self, number: u8) {
        self.mix(u64::from(number));
    }

    fn write_u32(&mut self, number: u32) {
        self.mix(u64::from(number));
    }

    fn write_usize(&mut self, number: usize) {
        self.mix(number as u64);
    }

    fn finish(&self) -> u64 {
        self.0.rotate_left(26)
    }
}

/// A map over short keys.
type Map<K, V> = HashMap<K, V, BuildHasherDefault<Mixer>>;

/// The number of the instance of each name.
type Lines<'a> = Map<Name<'a>, usize>;

/// The key of an event on this line, unless there is no instance of its address.
fn key<'a>(signal: &Signal<'a>, line: usize, lines: &Lines) -> Option<Key<'a>> {
    let other = *lines.get(&signal.address)? as u32;
    let line = line as u32;
    let (sender, receiver) = match signal.way {
        Way::Output => (line, other),
        Way::Input => (other, line),
    };
    Some((sender, receiver, signal.name, signal.number))
}

/// The segments of a section, and their events.
fn segments<'a, 'd>(section: &'d Section<'a>) -> impl Iterator<Item = &'d [Signal<'a>]> {
    section.items.iter().map(|item| match item {
        Item::Single(signal) => std::slice::from_ref(signal),
        Item::Coregion(signals) => signals,
    })
}

/// The events of a draft by number, before they have partners, and their keys; none where an
/// address is of no instance.
fn events<'a>(draft: &Draft<'a>, lines: &Lines) -> Option<Vec<(Event, Key<'a>)>> {
    let mut events = Vec::new();
    for (line, section) in draft.sections.iter().enumerate() {
        let line_end = events.len() + segments(section).map(<[Signal]>::len).sum::<usize>();
        for segment in segments(section) {
            let segment_start = events.len();
            let segment_end = segment_start + segment.len();
            for signal in segment {
                let event = Event {
                    way: signal.way,
                    line,
                    partner: 0,
                    message: 0,
                    segment_start,
                    segment_end,
                    line_end,
                };
                events.push((event, key(signal, line, lines)?));
            }
        }
    }
    Some(events)
}

/// The events with their partners, messages numbered by their outputs; none where an end is there
/// twice or alone, or where there are too many messages.
fn matched(events: Vec<(Event, Key)>) -> Option<Vec<Event>> {
    // the places of a message's output and input
    const NONE: usize = usize::MAX;
    let mut ends: Map<Key, [usize; 2]> = Map::default();
    ends.reserve(events.len() / 2);
    let mut partners = vec![NONE; events.len()];
    let mut messages = 0;
    for (e, (event, key)) in events.iter().enumerate() {
        let both = ends.entry(*key).or_insert([NONE; 2]);
        let (own, other) = match event.way {
            Way::Output => (0, both[1]),
            Way::Input => (1, both[0]),
        };
        if both[own] != NONE {
            return None;
        }
        both[own] = e;
        if other != NONE {
            (partners[e], partners[other]) = (other, e);
            messages += 1;
        }
    }
    if 2 * messages != events.len() || messages > MOST_MESSAGES {
        return None;
    }
    let mut events: Vec<Event> = events.into_iter().map(|(event, _)| event).collect();
    let mut message = 0;
    for (e, partner) in partners.into_iter().enumerate() {
        events[e].partner = partner;
        if events[e].way == Way::Output {
            events[e].message = message;
            events[partner].message = message;
            message += 1;
        }
    }
    Some(events)
}

/// The events of the next segment of the line of an event.
fn next_segment(events: &[Event], e: usize) -> Range<usize> {
    let start = events[e].segment_end;
    if start == events[e].line_end {
        start..start
    } else {
        start..events[start].segment_end
    }
}

/// The events in a linear order that keeps the visual order; none where there is a cycle.
fn linear_order(events: &[Event]) -> Option<Vec<usize>> {
    // how many events of a segment are missing, kept at its first one
    let mut left: Vec<usize> = events
        .iter()
        .map(|event| event.segment_end - event.segment_start)
        .collect();
    // what each event waits for: the segment before its own, and its output
    let is_first = |event: &Event| {
        event.segment_start == 0 || events[event.segment_start - 1].line != event.line
    };
    let waits = |event: &Event| u8::from(!is_first(event)) + u8::from(event.way == Way::Input);
    let mut waits: Vec<u8> = events.iter().map(waits).collect();
    let mut ready: Vec<usize> = (0..events.len()).filter(|e| waits[*e] == 0).collect();
    let mut order = Vec::with_capacity(events.len());
    while let Some(e) = ready.pop() {
        order.push(e);
        let start = events[e].segment_start;
        left[start] -= 1;
        let next = if left[start] == 0 {
            next_segment(events, e)
        } else {
            0..0
        };
        let input = (events[e].way == Way::Output).then_some(events[e].partner);
        for f in next.chain(input) {
            waits[f] -= 1;
            if waits[f] == 0 {
                ready.push(f);
            }
        }
    }
    (order.len() == events.len()).then_some(order)
}

impl Chart {
    /// The chart of a draft; none where the draft has a fault.
    pub fn build(draft: &Draft) -> Option<Chart> {
        let instances = draft.sections.len();
        let names = draft.sections.iter().map(|section| section.decl.name);
        let lines: Lines = names.zip(0..).collect();
        let all_known = draft
            .header
            .iter()
            .all(|decl| lines.contains_key(&decl.name));
        if instances > MOST_INSTANCES || lines.len() < instances || !all_known {
            return None;
        }
        let events = matched(events(draft, &lines)?)?;
        let order = linear_order(&events)?;
        Some(Chart {
            events,
            order,
            instances,
        })
    }

    pub fn is_output(&self, e: usize) -> bool {
        self.events[e].way == Way::Output
    }

    /// The events of the segment of `e`.
    pub fn segment(&self, e: usize) -> Range<usize> {
        self.events[e].segment_start..self.events[e].segment_end
    }

    /// The events of the next segment of the line of `e`.
    pub fn next_segment(&self, e: usize) -> Range<usize> {
        next_segment(&self.events, e)
    }

    /// A number past all numbers of queues.
    pub fn queue_count(&self, queues: Queues) -> usize {
        match queues {
            Queues::Pair => self.instances * self.instances,
            Queues::Mailbox => self.instances,
            Queues::Single => self.events.len() / 2,
        }
    }

    /// The queue of the message of output `s`.
    pub fn queue(&self, s: usize, queues: Queues) -> usize {
        let event = &self.events[s];
        let receiver = self.events[event.partner].line;
        match queues {
            Queues::Pair => event.line * self.instances + receiver,
            Queues::Mailbox => receiver,
            Queues::Single => event.message,
        }
    }
}
