//! The one sequence of commands, played in one place, and what a copy's disk must show of it. For checks only; no house reads it.
use crate::house::Disk;
use crate::messages::{Command, Recovery, Session, Sessions, is_new, rank};
use crate::messages::Reply;
use crate::rules::Rules;
use crate::service::{Answer, KEYS, Rest, effect};
use std::collections::HashMap;

#[derive(Clone, Copy, Debug, PartialEq, Eq, Hash)]
pub enum Check {
    /// two copies applied different commands at one place
    Sequence,
    /// sessions or rest aren't those of the replay
    Replay,
    /// a level copy's block isn't that of its version
    Blocks,
    /// a recovering copy's block isn't of a version from base to top
    Between,
    /// a block changed after its stamp and the floor
    Stamps,
    /// a status isn't what its sender stored
    Stored,
    /// a call was done twice
    Once,
    /// two copies recover at once, or one is less far than a copy that recovers
    Alone,
    /// an answer isn't that of the replay, or given twice, or to nobody
    Answer,
    /// busy where fewer than eight wait
    Busy,
    /// a call that waits is forgotten
    Forgotten,
    /// a promise, a version or a proposal went down
    Hold,
    /// calls that wait aren't answered though all but one house are up
    Settles,
}

impl Check {
    pub const ALL: &[Check] = &[
        Check::Sequence,
        Check::Replay,
        Check::Blocks,
        Check::Between,
        Check::Stamps,
        Check::Stored,
        Check::Once,
        Check::Alone,
        Check::Answer,
        Check::Busy,
        Check::Forgotten,
        Check::Hold,
        Check::Settles,
    ];

    /// What customers see, and that copies never disagree; the others are what keeps it so.
    pub const PROMISED: &[Check] =
        &[Check::Sequence, Check::Replay, Check::Blocks, Check::Once, Check::Answer, Check::Busy, Check::Settles];
}

#[derive(Clone, Debug)]
pub struct Fault {
    pub check: Check,
    pub text: String,
}

pub fn fault<T>(check: Check, text: impl Into<String>) -> Result<T, Fault> {
    Err(Fault { check, text: text.into() })
}

/// The state after so many commands; for each key, the version at which its block last changed.
#[derive(Clone, Debug)]
pub struct Played {
    pub sessions: Sessions,
    pub rest: Rest,
    pub blocks: [u8; KEYS],
    changed: [u64; KEYS],
}

#[derive(Clone, Debug)]
pub struct History {
    pub sequence: Vec<Command>,
    pub played: Vec<Played>,
    done: HashMap<u64, Answer>,
}

impl History {
    pub fn blank() -> History {
        let first = Played { sessions: Sessions::default(), rest: Rest::default(), blocks: [0; KEYS], changed: [0; KEYS] };
        History { sequence: Vec::new(), played: vec![first], done: HashMap::new() }
    }

    pub fn reply(&self, id: u64) -> Option<Answer> {
        self.done.get(&id).copied()
    }

    /// A copy applied a command at a place: the one that others applied there, or the first there.
    pub fn applied(&mut self, rules: &Rules, place: u64, command: &Command) -> Result<(), Fault> {
        match self.sequence.get(place as usize) {
            Some(there) if there == command => Ok(()),
            Some(there) => fault(Check::Sequence, format!("place {place}: {there:?} and {command:?}")),
            None if place as usize == self.sequence.len() => self.push(rules, command),
            None => fault(Check::Sequence, format!("place {place} after {} commands", self.sequence.len())),
        }
    }

    fn push(&mut self, rules: &Rules, command: &Command) -> Result<(), Fault> {
        let version = self.sequence.len() as u64 + 1;
        let mut now = self.played[self.sequence.len()].clone();
        let mut twice = None;
        for bundle in command.iter() {
            if !is_new(bundle, &now.sessions) {
                continue;
            }
            let mut replies = Vec::new();
            for item in bundle.calls.iter() {
                let done = effect(rules, item.call, &now.rest, |key| now.blocks[key as usize]);
                if let Some(change) = done.change {
                    let key = change.key as usize;
                    if now.blocks[key] != change.block {
                        now.changed[key] = version;
                    }
                    now.blocks[key] = change.block;
                }
                now.rest = done.rest;
                if self.done.insert(item.id, done.reply).is_some() {
                    twice = Some(item.id);
                }
                replies.push(Reply { id: item.id, reply: done.reply });
            }
            now.sessions[bundle.house] =
                Session { incarnation: bundle.incarnation, counter: bundle.counter, replies: replies.into() };
        }
        self.sequence.push(command.clone());
        self.played.push(now);
        twice.map_or(Ok(()), |id| fault(Check::Once, format!("call {id} done twice")))
    }

    /// What a copy stores is the state after as many commands as its version says.
    pub fn shows(&self, disk: &Disk) -> Result<(), Fault> {
        let Some(now) = self.played.get(disk.agreeing.version as usize) else {
            return fault(Check::Sequence, format!("version {} of {}", disk.agreeing.version, self.sequence.len()));
        };
        if disk.rest != now.rest || disk.sessions != now.sessions {
            return fault(Check::Replay, format!("at {}: {:?}, {:?}", disk.agreeing.version, disk.rest, now.rest));
        }
        match disk.agreeing.recovery {
            Recovery::Level => self.shows_all(disk, now),
            Recovery::Recovers { base, top } => self.shows_between(disk, base, top),
        }
    }

    fn shows_all(&self, disk: &Disk, now: &Played) -> Result<(), Fault> {
        for key in (0..KEYS as u64).filter(|key| !now.rest.gone(*key)) {
            let (has, is) = (disk.kept.look(key), now.blocks[key as usize]);
            if has != is {
                return fault(Check::Blocks, format!("key {key} at {}: {has}, not {is}", disk.agreeing.version));
            }
        }
        for key in (0..KEYS as u64).filter(|key| !now.rest.gone(*key)) {
            let age = disk.kept.stamp(key).max(disk.kept.floor);
            let changed = now.changed[key as usize];
            if age < changed {
                return fault(Check::Stamps, format!("key {key} at {}: {age}, changed at {changed}", disk.agreeing.version));
            }
        }
        Ok(())
    }

    fn shows_between(&self, disk: &Disk, base: u64, top: u64) -> Result<(), Fault> {
        let Some(range) = self.played.get(base as usize..=top as usize) else {
            return fault(Check::Between, format!("{base} to {top} of {}", self.sequence.len()));
        };
        for key in 0..KEYS as u64 {
            let has = disk.kept.look(key);
            if !range.iter().any(|p| p.rest.gone(key) || p.blocks[key as usize] == has) {
                return fault(Check::Between, format!("key {key} has {has} at none of {base} to {top}"));
            }
        }
        Ok(())
    }
}

/// Promise, version and incarnation never go down, and a proposal not before its place is passed.
pub fn holds(before: &Disk, after: &Disk) -> Result<(), Fault> {
    let (a, b) = (&before.agreeing, &after.agreeing);
    if b.promised < a.promised || b.version < a.version || after.incarnation < before.incarnation {
        return fault(Check::Hold, format!("{a:?} to {b:?}"));
    }
    if b.version == a.version && rank(&b.proposal) < rank(&a.proposal) {
        return fault(Check::Hold, format!("proposal {} to {} at {}", rank(&a.proposal), rank(&b.proposal), a.version));
    }
    if rank(&b.proposal) > b.promised + 1 {
        return fault(Check::Hold, format!("proposal {} above promise {}", rank(&b.proposal), b.promised));
    }
    if b.version == a.version && rank(&b.proposal) == rank(&a.proposal) && b.proposal != a.proposal {
        return fault(Check::Hold, format!("two proposals of ballot {} at {}", rank(&b.proposal), b.version));
    }
    Ok(())
}
