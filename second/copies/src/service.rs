//! A small service: blocks of one byte in groups, which may be dropped, and a counter; and how a house keeps its blocks.
use crate::mistakes::Mistake;
use crate::rules::Rules;
use std::rc::Rc;

pub const GROUPS: usize = 6;
pub const GROUP: usize = 3;
pub const KEYS: usize = GROUPS * GROUP;

#[derive(Clone, Copy, Debug, PartialEq, Eq, Hash)]
pub enum Call {
    Write { key: u64, block: u8 },
    Read { key: u64 },
    Drop { group: u64 },
}

#[derive(Clone, Copy, Debug, PartialEq, Eq, Hash)]
pub enum Answer {
    Wrote { before: u8, count: u64 },
    Block { block: u8, count: u64 },
    Dropped { count: u64 },
    Gone,
    Full,
}

/// Which groups are dropped, how many blocks of each aren't empty, and how many calls changed something.
#[derive(Clone, Debug, Default, PartialEq, Eq, Hash)]
pub struct Rest {
    pub gone: [bool; GROUPS],
    pub held: [u8; GROUPS],
    pub count: u64,
}

impl Rest {
    /// No call will ask for this block again.
    pub fn gone(&self, key: u64) -> bool {
        self.gone[key as usize / GROUP]
    }
}

#[derive(Clone, Copy, Debug, PartialEq, Eq)]
pub struct Change {
    pub key: u64,
    pub block: u8,
}

/// What a call replies, leaves, and changes.
pub struct Effect {
    pub reply: Answer,
    pub rest: Rest,
    pub change: Option<Change>,
}

pub fn effect(rules: &Rules, call: Call, rest: &Rest, look: impl Fn(u64) -> u8) -> Effect {
    let unchanged = |reply| Effect { reply, rest: rest.clone(), change: None };
    match call {
        Call::Write { key, .. } | Call::Read { key } if rest.gone(key) => unchanged(Answer::Gone),
        Call::Read { key } => unchanged(Answer::Block { block: look(key), count: rest.count }),
        Call::Write { key, block } => {
            let before = look(key);
            let held: usize = rest.held.iter().map(|n| usize::from(*n)).sum();
            if before == 0 && block != 0 && held >= rules.capacity {
                return unchanged(Answer::Full);
            }
            let mut rest = rest.clone();
            let held = &mut rest.held[key as usize / GROUP];
            // a planted mistake may leave a rest that doesn't fit the blocks
            *held = (*held + u8::from(block != 0)).saturating_sub(u8::from(before != 0));
            rest.count += 1;
            Effect { reply: Answer::Wrote { before, count: rest.count }, rest, change: Some(Change { key, block }) }
        }
        Call::Drop { group } if rest.gone[group as usize] => unchanged(Answer::Gone),
        Call::Drop { group } => {
            let mut rest = rest.clone();
            rest.gone[group as usize] = true;
            rest.held[group as usize] = 0;
            rest.count += 1;
            Effect { reply: Answer::Dropped { count: rest.count }, rest, change: None }
        }
    }
}

/// A block as it is kept, with the version at which it last changed; a marker, if it is empty.
#[derive(Clone, Copy, Debug, PartialEq, Eq, Hash)]
pub struct Stamped {
    pub key: u64,
    pub stamp: u64,
    pub block: u8,
}

pub struct Portion {
    pub next: Option<u64>,
    pub blocks: Vec<Stamped>,
}

/// Entries in the order of their keys; no stamp that was forgotten is above the floor.
#[derive(Clone, Debug, Default, PartialEq, Eq, Hash)]
pub struct Kept {
    entries: Rc<Vec<Stamped>>,
    pub floor: u64,
}

impl Kept {
    fn entry(&self, key: u64) -> Option<&Stamped> {
        self.entries.binary_search_by_key(&key, |e| e.key).ok().map(|i| &self.entries[i])
    }

    pub fn look(&self, key: u64) -> u8 {
        self.entry(key).map_or(0, |e| e.block)
    }

    pub fn stamp(&self, key: u64) -> u64 {
        self.entry(key).map_or(0, |e| e.stamp)
    }

    /// A block changes at a version.
    pub fn write(&self, rules: &Rules, rest: &Rest, version: u64, change: Option<Change>) -> Kept {
        let mut entries = (*self.entries).clone();
        if let Some(Change { key, block }) = change {
            place(&mut entries, Stamped { key, stamp: version, block });
        }
        forgetting(rules, rest, rules.capacity, entries, self.floor)
    }

    /// The blocks from a key on with a stamp above the base, or all, as many as go into one packet.
    pub fn portion(&self, rules: &Rules, rest: &Rest, whole: bool, base: u64, key: u64) -> Portion {
        let left_out = |e: &Stamped| whole && e.block == 0 && rules.has(Mistake::MarkersLeftOut);
        let mut there = self
            .entries
            .iter()
            .filter(|e| e.key >= key && !rest.gone(e.key) && (whole || e.stamp > base) && !left_out(e));
        let blocks = there.by_ref().take(rules.portion).copied().collect();
        Portion { next: there.next().map(|e| e.key), blocks }
    }

    /// A portion is taken over: what stands in its range and isn't in it stays, or goes if it is whole; none, if there is no place for it.
    #[allow(clippy::too_many_arguments)]
    pub fn take(&self, rules: &Rules, rest: &Rest, whole: bool, key: u64, next: Option<u64>, floor: u64, blocks: &[Stamped]) -> Option<Kept> {
        let inside = |k: u64| key <= k && next.is_none_or(|n| k < n);
        let mut entries: Vec<Stamped> = self.entries.iter().filter(|e| !(whole && inside(e.key))).copied().collect();
        for block in blocks {
            place(&mut entries, *block);
        }
        let floor = if rules.has(Mistake::FloorNotTaken) { self.floor } else { self.floor.max(floor) };
        let room = if rules.forgets { rules.capacity } else { usize::MAX };
        let kept = forgetting(rules, rest, room, entries, floor);
        (kept.entries.len() <= rules.limit).then_some(kept)
    }
}

fn place(entries: &mut Vec<Stamped>, entry: Stamped) {
    match entries.binary_search_by_key(&entry.key, |e| e.key) {
        Ok(i) => entries[i] = entry,
        Err(i) => entries.insert(i, entry),
    }
}

/// What is gone is forgotten, and the oldest markers, where there are too many entries; the floor rises with them.
fn forgetting(rules: &Rules, rest: &Rest, room: usize, mut entries: Vec<Stamped>, mut floor: u64) -> Kept {
    entries.retain(|e| !rest.gone(e.key));
    while entries.len() > room {
        let markers = entries.iter().enumerate().filter(|(_, e)| e.block == 0);
        let Some((i, stamp)) = markers.map(|(i, e)| (i, e.stamp)).min_by_key(|(_, stamp)| *stamp) else { break };
        entries.remove(i);
        if !rules.has(Mistake::FloorNotRaised) {
            floor = floor.max(stamp);
        }
    }
    Kept { entries: Rc::new(entries), floor }
}
