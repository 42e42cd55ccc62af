//! What a search knows of a history beforehand: which calls can be told apart, and when what is left to do has no order any more.
use crate::history::{History, Made};
use second_volumes::{MOST, Place, core_room};
use second_wire::Answer;
use std::collections::HashSet;

const MAKE: u8 = 1;
const ATTACH: u8 = 2;
const READ: u8 = 3;
const WRITE: u8 = 4;
const SYNC: u8 = 5;
const PICTURE: u8 = 6;
const COPY: u8 = 7;
const DROP: u8 = 8;
const DROP_PICTURE: u8 = 9;

pub struct Facts<'a> {
    /// the calls that may have a moment
    pub calls: Vec<&'a Made>,
    reads: Vec<Read>,
    /// whether the room, or the most that there may be of a kind, can ever be reached
    tight: bool,
    pictured: bool,
}

/// A read that was answered by a sector.
struct Read {
    read: usize,
    /// the writes of what it read, to where it read it
    sources: Vec<usize>,
    /// the writes of anything else to there that are done before the read was made
    earlier: Vec<usize>,
}

impl<'a> Facts<'a> {
    pub fn new(history: &'a History) -> Facts<'a> {
        let calls: Vec<&Made> = history.calls.iter().filter(|c| c.is_counted()).collect();
        let count = |kinds: &[u8]| calls.iter().filter(|c| kinds.contains(&c.call.kind)).count();
        let (pictures, writes) = (if history.pictured { count(&[PICTURE, COPY]) } else { 0 }, count(&[WRITE]));
        let things = count(&[MAKE]) + pictures;
        // each thing weighs 64, and at most each write is in what was made and in each picture or copy
        let weight = 64 * things + writes * (1 + pictures);
        let tight = weight as u64 > core_room(history.size) || things >= MOST;
        // what a copy of a picture shows was not written to it
        let made: HashSet<u64> = calls.iter().filter_map(|c| made_by(c)).collect();
        let reads = reads(&calls, |volume| pictures == 0 || made.contains(&volume));
        Facts { calls, reads, tight, pictured: pictures > 0 }
    }

    /// Whether the order of two calls may matter in a place; if it can't, both orders give the same answers and leave the same.
    pub fn conflict(&self, a: usize, b: usize, place: &Place) -> bool {
        let (a, b) = (self.calls[a], self.calls[b]);
        if self.tight || (takes_number(a) && takes_number(b)) || gives(a, b, place) || gives(b, a, place) {
            return true;
        }
        let same = a.call.numbers[0] == b.call.numbers[0];
        match (a.call.kind, b.call.kind) {
            (MAKE, _) | (_, MAKE) => false,
            (COPY | DROP_PICTURE, COPY | DROP_PICTURE) => same,
            (COPY | DROP_PICTURE, _) | (_, COPY | DROP_PICTURE) => false,
            (ATTACH | DROP, _) | (_, ATTACH | DROP) => same,
            (SYNC, _) | (_, SYNC) | (PICTURE, READ) | (READ, PICTURE) => false,
            (PICTURE, _) | (_, PICTURE) => same,
            _ => same && a.call.numbers[2] == b.call.numbers[2],
        }
    }

    /// Whether an answer that is still to come can't come any more.
    pub fn is_lost(&self, is_done: impl Fn(usize) -> bool, place: &Place) -> bool {
        (0..self.calls.len()).any(|i| !is_done(i) && is_past(self.calls[i], place))
            || self.reads.iter().any(|r| !is_done(r.read) && self.is_overwritten(r, &is_done, place))
    }

    fn is_overwritten(&self, read: &Read, is_done: &impl Fn(usize) -> bool, place: &Place) -> bool {
        let made = self.calls[read.read];
        let Some((_, Answer::Sector(content))) = &made.answer else {
            return false;
        };
        let numbers = &made.call.numbers;
        if place.token(numbers[0]).is_none() || read.sources.iter().any(|i| !is_done(*i)) {
            return false;
        }
        !place.has(numbers[0], numbers[2], content) || read.earlier.iter().any(|i| !is_done(*i))
    }

    /// Whether a call that isn't answered can help another one to its answer.
    pub fn may_help(&self, i: usize, is_done: impl Fn(usize) -> bool) -> bool {
        if self.tight || self.pictured || self.calls[i].call.kind != WRITE {
            return true;
        }
        self.reads.iter().any(|r| !is_done(r.read) && r.sources.contains(&i))
    }
}

/// The volume that a make was answered by.
fn made_by(made: &Made) -> Option<u64> {
    match (made.call.kind, &made.answer) {
        (MAKE, Some((_, Answer::Number(number)))) => Some(*number),
        _ => None,
    }
}

fn takes_number(made: &Made) -> bool {
    matches!(made.call.kind, MAKE | PICTURE | COPY)
}

/// Whether a call may make what another is about.
fn gives(make: &Made, other: &Made, place: &Place) -> bool {
    let picture = matches!(other.call.kind, COPY | DROP_PICTURE);
    let makes = if picture { make.call.kind == PICTURE } else { matches!(make.call.kind, MAKE | COPY) };
    let number = other.call.numbers[0];
    makes && match &make.answer {
        Some((_, answer)) => *answer == Answer::Number(number),
        None => place.next_number() <= number,
    }
}

/// Numbers and tokens only go up, and what is dropped doesn't come again.
fn is_past(made: &Made, place: &Place) -> bool {
    let Some((_, answer)) = &made.answer else {
        return false;
    };
    let numbers = &made.call.numbers;
    let there = place.token(numbers[0]);
    let gone = there.is_none() && numbers[0] < place.next_number();
    match (made.call.kind, answer) {
        (MAKE, Answer::Number(n)) => place.next_number() > *n,
        (ATTACH, Answer::Token { token, .. }) => gone || there.is_some_and(|there| there >= *token),
        (READ | WRITE | SYNC | DROP, Answer::Refused(4)) => gone,
        (READ, Answer::Sector(_)) | (WRITE, Answer::Yes | Answer::Full) | (READ | WRITE, Answer::Refused(1)) | (SYNC | DROP, Answer::Yes) => {
            gone || there.is_some_and(|there| there > numbers[1])
        }
        _ => false,
    }
}

/// The reads, where it is told of which volumes it is known that they began as zeros.
fn reads(calls: &[&Made], is_made: impl Fn(u64) -> bool) -> Vec<Read> {
    let at = |i: usize| (calls[i].call.numbers[0], calls[i].call.numbers[2]);
    // a write that may have been done
    let writes = |i: &usize| calls[*i].call.kind == WRITE && matches!(calls[*i].answer, None | Some((_, Answer::Yes)));
    let writes: Vec<usize> = (0..calls.len()).filter(writes).collect();
    let mut reads = Vec::new();
    for (read, made) in calls.iter().enumerate() {
        if let (READ, Some((_, Answer::Sector(content)))) = (made.call.kind, &made.answer) {
            let (sources, others): (Vec<_>, _) = writes.iter().filter(|i| at(**i) == at(read)).partition(|i| calls[**i].call.content == *content);
            reads.push(Read { read, sources, earlier: others });
        }
    }
    let is_new = |i: usize| is_made(calls[i].call.numbers[0]) && calls[i].call.content.iter().any(|b| *b != 0);
    let due: Vec<usize> = (0..calls.len()).map(|i| due(calls, &reads, i, is_new(i))).collect();
    for read in &mut reads {
        read.earlier.retain(|i| due[*i] < calls[read.read].line);
    }
    reads
}

/// When a call is done at the latest: before it is answered, and, of what wasn't there from the first, before what it alone wrote is read.
fn due(calls: &[&Made], reads: &[Read], i: usize, is_new: bool) -> usize {
    let alone = reads.iter().filter(|r| is_new && r.sources == [i]);
    alone.map(|r| calls[r.read].due()).fold(calls[i].due(), usize::min)
}
