//! The search for an order that explains each answer, with no cuts: Wing and Gong's, depth first over the calls that may come next.
//!
//! - A call that by its answer changes nothing is done as soon as it is answered so: in every order from here on it may come first.
//! - Of the others only those are tried that the call which is due first may conflict with, or what conflicts with these, and so on: all
//!   that comes before that call in an order, and is not of these, may come after it as well.
//! - Of calls that say the same, and fit, the one that is due first is tried.
//! - What was done, with the state that it left, is not looked at twice.
//! - A call is done in the place itself and taken back.
//! - A call that isn't answered is done where it is tried, or never.
use crate::facts::Facts;
use crate::history::{History, Made};
use second_volumes::{Trial, core_room};
use second_wire::Call;
use std::collections::HashSet;

/// So many states are looked at before the search gives up.
pub const STATES: usize = 1_000_000;

#[derive(Clone, Debug, PartialEq, Eq)]
pub enum Found {
    /// the moments of calls by their numbers
    Order(Vec<u64>),
    None,
    /// the search gave up
    Undecided,
}

pub fn search(history: &History, states: usize) -> Found {
    looked_at(history, states).0
}

/// With how many states were looked at.
pub fn looked_at(history: &History, states: usize) -> (Found, usize) {
    if !history.faults.is_empty() {
        return (Found::None, 0);
    }
    let facts = Facts::new(history);
    let done = Done(vec![0; facts.calls.len().div_ceil(64)]);
    let place = Trial::new(core_room(history.size), history.pictured);
    let mut search = Search { facts, place, done, order: Vec::new(), seen: HashSet::new(), states };
    let found = match search.explore() {
        Ok(true) => Found::Order(search.order.iter().map(|i| search.facts.calls[*i].number).collect()),
        Ok(false) => Found::None,
        Err(GaveUp) => Found::Undecided,
    };
    (found, search.seen.len())
}

struct GaveUp;

/// A set of calls.
#[derive(Clone, PartialEq, Eq, Hash)]
struct Done(Vec<u64>);

impl Done {
    fn has(&self, i: usize) -> bool {
        self.0[i / 64] >> (i % 64) & 1 == 1
    }

    fn flip(&mut self, i: usize) {
        self.0[i / 64] ^= 1 << (i % 64);
    }
}

struct Search<'a> {
    facts: Facts<'a>,
    place: Trial,
    done: Done,
    order: Vec<usize>,
    seen: HashSet<(Done, u64)>,
    states: usize,
}

impl Search<'_> {
    /// Whether there is an order from here on; if there is none, all is as it was.
    fn explore(&mut self) -> Result<bool, GaveUp> {
        let length = self.order.len();
        self.do_unchanging();
        let found = self.branch()?;
        if !found {
            for i in self.order.split_off(length) {
                self.done.flip(i);
            }
        }
        Ok(found)
    }

    fn branch(&mut self) -> Result<bool, GaveUp> {
        let Some(first) = self.due_first() else {
            return Ok(true);
        };
        if self.facts.is_lost(|i| self.done.has(i), self.place.place()) || !self.seen.insert((self.done.clone(), self.place.digest())) {
            return Ok(false);
        }
        if self.seen.len() > self.states {
            return Err(GaveUp);
        }
        let mut tried: Vec<&Call> = Vec::new();
        for i in self.choices(first) {
            let made = self.facts.calls[i];
            if tried.contains(&&made.call) {
                continue;
            }
            let (answer, undo) = self.place.does(&made.call);
            if made.answer.as_ref().map_or(!undo.is_nothing(), |(_, told)| *told == answer) {
                tried.push(&made.call);
                self.mark(i);
                if self.explore()? {
                    return Ok(true);
                }
                self.order.pop();
                self.done.flip(i);
            }
            self.place.undo(undo);
        }
        Ok(false)
    }

    fn mark(&mut self, i: usize) {
        self.done.flip(i);
        self.order.push(i);
    }

    /// The call that was answered first of those that aren't done yet.
    fn due_first(&self) -> Option<usize> {
        let left = (0..self.facts.calls.len()).filter(|i| !self.done.has(*i) && self.facts.calls[*i].answer.is_some());
        left.min_by_key(|i| self.facts.calls[*i].due())
    }

    /// The calls that may come next: made before that one was answered.
    fn may_come(&self, first: usize) -> Vec<usize> {
        let due = self.facts.calls[first].due();
        let made = (0..self.facts.calls.len()).take_while(|i| self.facts.calls[*i].line < due);
        made.filter(|i| !self.done.has(*i)).collect()
    }

    /// Does all calls that by their answers change nothing, where they are answered so.
    fn do_unchanging(&mut self) {
        while let Some(first) = self.due_first() {
            let mut any = false;
            for i in self.may_come(first) {
                let made = self.facts.calls[i];
                if made.changes_nothing() && self.would_answer(made) {
                    self.mark(i);
                    any = true;
                }
            }
            if !any {
                return;
            }
        }
    }

    fn would_answer(&mut self, made: &Made) -> bool {
        let (answer, undo) = self.place.does(&made.call);
        self.place.undo(undo);
        made.answer.as_ref().is_some_and(|(_, told)| *told == answer)
    }

    /// The calls to be tried: the one that is due first, then those that may matter to it, as they are due.
    fn choices(&self, first: usize) -> Vec<usize> {
        let helps = |i: &usize| self.facts.calls[*i].answer.is_some() || self.facts.may_help(*i, |i| self.done.has(i));
        let mut rest: Vec<usize> = self.may_come(first).into_iter().filter(|i| *i != first).filter(helps).collect();
        let mut choices = vec![first];
        let mut at = 0;
        while at < choices.len() {
            let conflicts = |i: &mut usize| self.facts.conflict(choices[at], *i, self.place.place());
            let more: Vec<usize> = rest.extract_if(.., conflicts).collect();
            choices.extend(more);
            at += 1;
        }
        choices[1..].sort_by_key(|i| self.facts.calls[*i].due());
        choices
    }
}
