//! Houses, all packets that were ever sent, and the checks after each step.
use crate::copy::{Memory, is_copy};
use crate::history::{Check, Fault, History, fault, holds};
use crate::house::{Did, Disk, Ended, In, Out, acts, wakes};
use crate::messages::{HOUSES, Item, Message, Recovery, Status};
use crate::mistakes::Mistake;
use crate::rules::Rules;
use crate::service::{Answer, Call};

#[derive(Clone, Debug)]
pub enum Stand {
    Off(Disk),
    On(Memory, Disk),
}

impl Stand {
    pub fn disk(&self) -> &Disk {
        match self {
            Stand::Off(disk) | Stand::On(_, disk) => disk,
        }
    }

    pub fn is_on(&self) -> bool {
        matches!(self, Stand::On(..))
    }
}

#[derive(Clone, Debug, PartialEq, Eq, Hash)]
pub struct Packet {
    pub to: usize,
    pub from: usize,
    pub what: Message,
}

/// Whether the power fails in an event, before or after its transaction.
#[derive(Clone, Copy, Debug, PartialEq, Eq)]
pub enum Cut {
    No,
    Before,
    After,
}

#[derive(Clone, Debug)]
pub enum Event {
    Rise(usize),
    Fall(usize),
    Deliver(Packet, Cut),
    Ask(usize, u64, Call, Cut),
    Tick(usize, Cut),
}

/// How often what happened.
#[derive(Clone, Copy, Debug, Default, PartialEq, Eq)]
pub struct Tally {
    pub steps: usize,
    pub commands: usize,
    pub ballots: usize,
    pub calls: usize,
    pub answers: usize,
    pub busy: usize,
    pub falls: usize,
    pub recoveries: usize,
    pub parts: usize,
    pub wholes: usize,
    pub ranged: usize,
    pub ended: usize,
    pub adopted: usize,
    pub began_again: usize,
    /// rare, so not asked for
    pub ended_with_proposal: usize,
}

impl Tally {
    fn fields(&mut self) -> [&mut usize; 15] {
        [
            &mut self.steps,
            &mut self.commands,
            &mut self.ballots,
            &mut self.calls,
            &mut self.answers,
            &mut self.busy,
            &mut self.falls,
            &mut self.recoveries,
            &mut self.parts,
            &mut self.wholes,
            &mut self.ranged,
            &mut self.ended,
            &mut self.adopted,
            &mut self.began_again,
            &mut self.ended_with_proposal,
        ]
    }

    pub fn add(&mut self, mut other: Tally) {
        for (mine, theirs) in self.fields().into_iter().zip(other.fields()) {
            *mine += *theirs;
        }
    }

    pub fn met_all(&mut self) -> bool {
        self.fields()[..14].iter().all(|n| **n > 0)
    }
}

pub struct World {
    pub rules: Rules,
    pub houses: Vec<Stand>,
    pub wire: Vec<Packet>,
    /// calls made at houses that haven't fallen since, and not answered
    pub pending: Vec<Vec<u64>>,
    pub calls: u64,
    pub tally: Tally,
    history: History,
    checks: Vec<Check>,
}

impl World {
    pub fn new(rules: Rules, checks: &[Check]) -> World {
        World {
            rules,
            houses: vec![Stand::Off(Disk::blank()); HOUSES],
            wire: Vec::new(),
            pending: vec![Vec::new(); HOUSES],
            calls: 0,
            tally: Tally::default(),
            history: History::blank(),
            checks: checks.to_vec(),
        }
    }

    /// A fault of a check that isn't looked at is passed over.
    fn watched(&self, result: Result<(), Fault>) -> Result<(), Fault> {
        result.or_else(|f| if self.checks.contains(&f.check) { Err(f) } else { Ok(()) })
    }

    /// Does an event, if it can happen.
    pub fn step(&mut self, event: &Event) -> Result<bool, Fault> {
        let done = match event {
            Event::Rise(i) => self.rise(*i),
            Event::Fall(i) => self.fall(*i),
            Event::Deliver(packet, cut) => self.play(packet.to, &In::From(packet.from, packet.what.clone()), *cut)?,
            Event::Ask(i, id, call, cut) => self.asked(*i, *id, *call, *cut)?,
            Event::Tick(i, cut) => self.play(*i, &In::Tick, *cut)?,
        };
        self.tally.steps += usize::from(done);
        self.watched(self.alone())?;
        Ok(done)
    }

    fn rise(&mut self, i: usize) -> bool {
        let Stand::Off(disk) = &self.houses[i] else { return false };
        let (disk, memory) = wakes(&self.rules, i, disk);
        self.houses[i] = Stand::On(memory, disk);
        true
    }

    fn fall(&mut self, i: usize) -> bool {
        let Stand::On(_, disk) = &self.houses[i] else { return false };
        self.houses[i] = Stand::Off(disk.clone());
        self.pending[i].clear();
        self.tally.falls += 1;
        true
    }

    fn asked(&mut self, i: usize, id: u64, call: Call, cut: Cut) -> Result<bool, Fault> {
        if !self.houses[i].is_on() {
            return Ok(false);
        }
        self.calls = self.calls.max(id + 1);
        self.tally.calls += 1;
        self.pending[i].push(id);
        self.play(i, &In::Ask(Item { id, call }), cut)
    }

    /// A packet, a call or a tick comes to a house.
    fn play(&mut self, i: usize, event: &In, cut: Cut) -> Result<bool, Fault> {
        let Stand::On(memory, disk) = &self.houses[i] else { return Ok(false) };
        let ended = acts(&self.rules, event, memory, disk);
        let before = disk.clone();
        let sends = cut == Cut::No || (cut == Cut::Before && self.rules.has(Mistake::SendsFirst));
        self.houses[i] = match cut {
            Cut::No => Stand::On(ended.memory.clone(), ended.stored.clone()),
            Cut::After => Stand::On(memory.clone(), ended.stored.clone()),
            Cut::Before => Stand::On(memory.clone(), before.clone()),
        };
        if cut != Cut::Before {
            self.stored(i, &before, &ended)?;
        }
        if sends {
            self.sent(i, event, &ended)?;
        }
        if cut != Cut::No {
            self.fall(i);
        }
        self.watched(self.remembers(i))?;
        Ok(true)
    }

    fn stored(&mut self, i: usize, before: &Disk, ended: &Ended) -> Result<(), Fault> {
        let after = &ended.stored;
        if !is_copy(i) {
            return Ok(());
        }
        self.note(before, ended);
        if let Did::Applied(command) = &ended.did {
            let applied = self.history.applied(&self.rules, before.agreeing.version, command);
            self.watched(applied)?;
        }
        self.watched(holds(before, after))?;
        self.watched(self.history.shows(after))
    }

    fn note(&mut self, before: &Disk, ended: &Ended) {
        let after = &ended.stored.agreeing;
        let tally = &mut self.tally;
        tally.ballots += usize::from(after.promised > before.agreeing.promised);
        let recovers = |r: Recovery| r != Recovery::Level;
        tally.recoveries += usize::from(recovers(after.recovery) && !recovers(before.agreeing.recovery));
        match ended.did {
            Did::Nothing => {}
            Did::Applied(_) => tally.commands += 1,
            Did::Took { whole } => {
                tally.parts += 1;
                tally.wholes += usize::from(whole);
            }
            Did::Ranged => tally.ranged += 1,
            Did::Ended => {
                tally.ended += 1;
                tally.ended_with_proposal += usize::from(before.agreeing.proposal.is_some());
            }
            Did::Adopted => tally.adopted += 1,
            Did::BeganAgain => tally.began_again += 1,
        }
    }

    fn sent(&mut self, i: usize, event: &In, ended: &Ended) -> Result<(), Fault> {
        for out in &ended.out {
            match out {
                Out::Tell(id, None) => self.told_busy(i, *id, event)?,
                Out::Tell(id, Some(answer)) => self.told(i, *id, *answer)?,
                Out::To(to, what) => {
                    self.watched(self.is_stored(i, what))?;
                    self.wire.push(Packet { to: *to, from: i, what: what.clone() });
                }
            }
        }
        Ok(())
    }

    fn is_stored(&self, i: usize, what: &Message) -> Result<(), Fault> {
        match what {
            Message::Told(status) if *status != Status::of(&self.houses[i].disk().agreeing) => {
                fault(Check::Stored, format!("house {i} says {status:?}"))
            }
            _ => Ok(()),
        }
    }

    fn told(&mut self, i: usize, id: u64, answer: Answer) -> Result<(), Fault> {
        self.tally.answers += 1;
        let there = self.history.reply(id);
        let waits = self.pending[i].iter().position(|k| *k == id);
        if there != Some(answer) || waits.is_none() {
            self.watched(fault(Check::Answer, format!("house {i}, call {id}: {answer:?}, {there:?}, waits {waits:?}")))?;
        }
        self.pending[i].retain(|k| *k != id);
        Ok(())
    }

    fn told_busy(&mut self, i: usize, id: u64, event: &In) -> Result<(), Fault> {
        self.tally.busy += 1;
        let at_once = matches!(event, In::Ask(item) if item.id == id);
        self.pending[i].retain(|k| *k != id);
        if !at_once || self.pending[i].len() < 8 {
            self.watched(fault(Check::Busy, format!("house {i}, call {id}: {} wait", self.pending[i].len())))?;
        }
        Ok(())
    }

    /// The calls that wait are those that the house remembers.
    fn remembers(&self, i: usize) -> Result<(), Fault> {
        let Stand::On(memory, _) = &self.houses[i] else { return Ok(()) };
        let has = |id: &u64| {
            let under_way = memory.way.iter().flat_map(|b| b.calls.iter());
            memory.waiting.iter().chain(under_way).any(|item| item.id == *id)
        };
        match self.pending[i].iter().find(|id| !has(id)) {
            Some(id) => fault(Check::Forgotten, format!("house {i}, call {id}")),
            None => Ok(()),
        }
    }

    fn alone(&self) -> Result<(), Fault> {
        let copies = || self.houses[..3].iter().map(|house| &house.disk().agreeing);
        for (i, a) in copies().enumerate().filter(|(_, a)| a.recovery != Recovery::Level) {
            for (j, b) in copies().enumerate().filter(|(j, _)| *j != i) {
                if b.recovery != Recovery::Level || b.version < a.version {
                    return fault(Check::Alone, format!("copies {i}: {a:?} and {j}: {b:?}"));
                }
            }
        }
        Ok(())
    }
}
