//! Random walks, and whether what waits is answered with one house out.
use crate::history::{Check, Fault, fault};
use crate::messages::{HOUSES, Message, Recovery};
use crate::mistakes::Mistake;
use crate::rules::Rules;
use crate::service::{Call, GROUP, KEYS};
use crate::world::{Cut, Event, Stand, Tally, World};
use random::Random;
use std::sync::atomic::{AtomicU64, Ordering::Relaxed};
use std::thread::{available_parallelism, scope};

/// How many events a walk has.
pub const STEPS: usize = 300;

/// All that wait are answered within so many steps.
pub const BOUND: usize = 4000;

/// What a walk does how often, of a thousand events.
struct Profile {
    fall: usize,
    rise: usize,
    ask: usize,
    tick: usize,
    cut: usize,
    /// of a thousand packets, how many are new ones, in order or not, or recent
    ordered: usize,
    new: usize,
    recent: usize,
    /// of a thousand packets, how many are for a copy that recovers: a part of any age, or whatever
    aimed: usize,
    /// of a thousand calls, how many at one house
    gathered: usize,
    /// of forty calls, how many empty a block
    emptying: usize,
    /// for how many events about a house hears little
    deaf: usize,
}

/// After how many events another profile is chosen.
const PHASE: usize = 50;

fn one_of(random: &mut Random, list: &[usize]) -> usize {
    list[random.below(list.len())]
}

impl Profile {
    fn new(random: &mut Random) -> Profile {
        match random.below(4) {
            0 => Profile::wild(random),
            1 => Profile::duel(random),
            2 => Profile::calm(random),
            _ => Profile::apart(random),
        }
    }

    /// One hears little all the while, the others do many calls.
    fn apart(random: &mut Random) -> Profile {
        Profile { ask: one_of(random, &[120, 200]), deaf: 1000, emptying: 18, ..Profile::calm(random) }
    }

    /// Packets come mostly in order, nothing falls.
    fn calm(random: &mut Random) -> Profile {
        Profile {
            fall: 0,
            rise: 100,
            ask: one_of(random, &[60, 120]),
            tick: one_of(random, &[40, 80]),
            cut: 0,
            ordered: 960,
            new: 30,
            recent: 5,
            aimed: one_of(random, &[0, 50]),
            gathered: 0,
            emptying: one_of(random, &[2, 10, 18]),
            deaf: 60,
        }
    }

    /// Many ballots are taken, packets come in any order.
    fn duel(random: &mut Random) -> Profile {
        Profile {
            fall: 0,
            rise: 200,
            ask: 60,
            tick: one_of(random, &[100, 200]),
            cut: 0,
            ordered: one_of(random, &[0, 300]),
            new: 650,
            recent: 20,
            aimed: one_of(random, &[0, 100]),
            gathered: 0,
            emptying: 10,
            deaf: 15,
        }
    }

    fn wild(random: &mut Random) -> Profile {
        Profile {
            fall: one_of(random, &[0, 4, 10, 25]),
            rise: one_of(random, &[20, 60, 200]),
            ask: one_of(random, &[40, 80, 120, 200]),
            tick: one_of(random, &[50, 100, 180]),
            cut: one_of(random, &[0, 5, 20]),
            ordered: one_of(random, &[200, 500, 800]),
            new: one_of(random, &[50, 200, 400]),
            recent: one_of(random, &[30, 100]),
            aimed: one_of(random, &[0, 100, 300]),
            gathered: one_of(random, &[0, 0, 0, 0, 0, 950]),
            emptying: one_of(random, &[2, 10, 18]),
            deaf: one_of(random, &[20, 40, 80]),
        }
    }
}

pub fn rules(random: &mut Random, mistake: Option<Mistake>) -> Rules {
    let capacity = one_of(random, &[1, 1, 2, 2, 3, 4, 8]);
    let limit = capacity + one_of(random, &[0, 0, 0, 1, capacity]);
    Rules { mistake, patience: Some(2), capacity, limit, forgets: random.below(2) == 0, portion: one_of(random, &[1, 1, 2, 3]) }
}

/// A walk under way: the world, packets not yet delivered, and a house that hears little for a while.
pub struct Walk {
    pub world: World,
    pub events: Vec<Event>,
    random: Random,
    profile: Profile,
    new: Vec<usize>,
    /// for each house the parts that were sent to it
    parts: [Vec<usize>; HOUSES],
    seen: usize,
    deaf: usize,
}

impl Walk {
    pub fn new(seed: u64, mistake: Option<Mistake>, checks: &[Check]) -> Walk {
        let mut random = Random::new(seed.wrapping_mul(0x2545_f491_4f6c_dd1d) ^ 0x5bd1_e995);
        let world = World::new(rules(&mut random, mistake), checks);
        let profile = Profile::new(&mut random);
        Walk { world, events: Vec::new(), random, profile, new: Vec::new(), parts: Default::default(), seen: 0, deaf: HOUSES }
    }

    pub fn run(&mut self, steps: usize) -> Result<(), Fault> {
        for i in 0..HOUSES {
            self.does(Event::Rise(i))?;
        }
        for step in 0..steps {
            if step % PHASE == 0 {
                self.profile = Profile::new(&mut self.random);
                self.deaf = self.random.below(5);
            }
            if let Some(event) = self.picks() {
                self.does(event)?;
            }
        }
        Ok(())
    }

    fn does(&mut self, event: Event) -> Result<(), Fault> {
        self.events.push(event.clone());
        self.world.step(&event)?;
        for i in self.seen..self.world.wire.len() {
            let packet = &self.world.wire[i];
            self.new.push(i);
            if let Message::Given(_) = packet.what {
                self.parts[packet.to].push(i);
            }
        }
        self.seen = self.world.wire.len();
        if self.new.len() > 60 {
            self.new.drain(..self.new.len() - 60);
        }
        Ok(())
    }

    fn picks(&mut self) -> Option<Event> {
        if self.random.below(self.profile.deaf) == 0 {
            self.deaf = self.random.below(5);
        }
        let off: Vec<usize> = (0..HOUSES).filter(|i| !self.world.houses[*i].is_on()).collect();
        if !off.is_empty() && self.random.below(1000) < self.profile.rise {
            return Some(Event::Rise(off[self.random.below(off.len())]));
        }
        let house = self.random.below(HOUSES);
        let kind = self.random.below(1000);
        let Profile { fall, ask, tick, .. } = self.profile;
        if kind < fall {
            Some(Event::Fall(house))
        } else if kind < fall + ask {
            Some(self.asks(house))
        } else if kind < fall + ask + tick {
            Some(Event::Tick(house, self.cut()))
        } else {
            self.delivers()
        }
    }

    fn cut(&mut self) -> Cut {
        if self.random.below(1000) >= self.profile.cut {
            return Cut::No;
        }
        [Cut::Before, Cut::After][self.random.below(2)]
    }

    fn asks(&mut self, house: usize) -> Event {
        let house = if self.random.below(1000) < self.profile.gathered { 3 } else { house };
        let key = self.random.below(KEYS) as u64;
        let held: usize = self.world.houses[0].disk().rest.held.iter().map(|n| usize::from(*n)).sum();
        // where no block has place, one is often emptied
        let at_least = if held >= self.world.rules.capacity && self.random.below(2) == 0 { 6 } else { 0 };
        let call = match at_least + self.random.below(40 - at_least) {
            n if n < 6 + self.profile.emptying + 2 * at_least && n >= 6 => Call::Write { key: self.full_key().unwrap_or(key), block: 0 },
            0 => Call::Drop { group: key / GROUP as u64 },
            1..=5 => Call::Read { key },
            _ => Call::Write { key, block: 1 + self.random.below(250) as u8 },
        };
        Event::Ask(house, self.world.calls, call, self.cut())
    }

    /// A key whose block isn't empty at some copy.
    fn full_key(&mut self) -> Option<u64> {
        let kept = &self.world.houses[self.random.below(3)].disk().kept;
        let full: Vec<u64> = (0..KEYS as u64).filter(|key| kept.look(*key) != 0).collect();
        if full.is_empty() { None } else { Some(full[self.random.below(full.len())]) }
    }

    /// One of all packets ever sent, mostly new ones.
    fn delivers(&mut self) -> Option<Event> {
        let all = self.world.wire.len();
        if all == 0 {
            return None;
        }
        let Profile { ordered, new, recent, aimed, .. } = self.profile;
        if self.random.below(1000) < aimed
            && let Some(index) = self.aims()
        {
            return Some(Event::Deliver(self.world.wire[index].clone(), self.cut()));
        }
        let kind = self.random.below(1000);
        let index = if kind < ordered && !self.new.is_empty() {
            self.new.remove(0)
        } else if kind < ordered + new && !self.new.is_empty() {
            let at = self.random.below(self.new.len());
            self.new.remove(at)
        } else if kind < ordered + new + recent {
            all - 1 - self.random.below(all.min(40))
        } else {
            self.random.below(all)
        };
        let packet = self.world.wire[index].clone();
        if packet.to == self.deaf && self.random.below(10) > 0 {
            return None;
        }
        Some(Event::Deliver(packet, self.cut()))
    }

    /// A packet for a copy that recovers.
    fn aims(&mut self) -> Option<usize> {
        let recovers = |i: &usize| self.world.houses[*i].disk().agreeing.recovery != Recovery::Level;
        let copy = (0..3).find(recovers)?;
        let parts = &self.parts[copy];
        if !parts.is_empty() && self.random.below(2) == 0 {
            return Some(parts[self.random.below(parts.len())]);
        }
        let index = self.random.below(self.world.wire.len());
        (self.world.wire[index].to == copy).then_some(index)
    }

    /// A house to be out: often the copy that is furthest, where another recovers.
    fn out(&mut self) -> usize {
        let copies: Vec<_> = self.world.houses[..3].iter().map(|house| house.disk().agreeing.clone()).collect();
        if copies.iter().any(|a| a.recovery != Recovery::Level) && self.random.below(2) == 0 {
            return (0..3).max_by_key(|i| copies[*i].version).unwrap_or(0);
        }
        self.random.below(HOUSES)
    }

    /// With one house out: the others rise, their clocks tick in turn, and each packet that they send is delivered, until all calls
    /// that wait at them are answered. Gives how many steps it took.
    pub fn settles(&mut self, out: usize, shuffled: bool) -> Result<usize, Fault> {
        let group: Vec<usize> = (0..HOUSES).filter(|i| *i != out).collect();
        let mut settling = Settling { next: self.world.wire.len(), group, out, shuffled, steps: 0, queue: Vec::new() };
        settling.run(self)
    }
}

struct Settling {
    group: Vec<usize>,
    out: usize,
    shuffled: bool,
    steps: usize,
    next: usize,
    queue: Vec<usize>,
}

impl Settling {
    fn run(&mut self, walk: &mut Walk) -> Result<usize, Fault> {
        for i in self.group.clone() {
            if let Stand::Off(_) = walk.world.houses[i] {
                self.does(walk, Event::Rise(i))?;
            }
        }
        while !self.answered(walk) {
            for i in self.group.clone() {
                self.does(walk, Event::Tick(i, Cut::No))?;
            }
            while let Some(index) = self.picks(walk) {
                let packet = walk.world.wire[index].clone();
                if packet.to != self.out && !self.answered(walk) {
                    self.does(walk, Event::Deliver(packet, Cut::No))?;
                }
            }
        }
        Ok(self.steps)
    }

    fn does(&mut self, walk: &mut Walk, event: Event) -> Result<(), Fault> {
        walk.events.push(event.clone());
        walk.world.step(&event)?;
        self.steps += 1;
        if self.steps > BOUND {
            let copies: Vec<_> = walk.world.houses.iter().map(|house| house.disk().agreeing.clone()).collect();
            return fault(Check::Settles, format!("without {}: {:?} wait, {copies:?}", self.out, walk.world.pending));
        }
        Ok(())
    }

    fn picks(&mut self, walk: &mut Walk) -> Option<usize> {
        self.queue.extend(self.next..walk.world.wire.len());
        self.next = walk.world.wire.len();
        if self.queue.is_empty() {
            return None;
        }
        let at = if self.shuffled { walk.random.below(self.queue.len()) } else { 0 };
        Some(self.queue.remove(at))
    }

    fn answered(&self, walk: &Walk) -> bool {
        self.group.iter().all(|i| walk.world.pending[*i].is_empty())
    }
}

/// Plays the walk of a seed, and settles at its end.
pub fn walk(seed: u64, steps: usize, mistake: Option<Mistake>, checks: &[Check]) -> (Walk, Result<usize, Fault>) {
    let mut walk = Walk::new(seed, mistake, checks);
    let mut result = walk.run(steps).map(|()| 0);
    if result.is_ok() && checks.contains(&Check::Settles) {
        let out = walk.out();
        result = walk.settles(out, seed.is_multiple_of(3));
    }
    (walk, result)
}

/// Walks of any length up to twice the usual, and how many steps it took to settle at their ends: the most, and all.
pub fn settle(seed: u64, n: usize) -> Result<(usize, usize), (u64, Fault)> {
    let (mut most, mut all) = (0, 0);
    for seed in seed..seed + n as u64 {
        let steps = Random::new(seed).below(2 * STEPS);
        let (_, result) = walk(seed, steps, None, Check::ALL);
        let taken = result.map_err(|f| (seed, f))?;
        most = most.max(taken);
        all += taken;
    }
    Ok((most, all))
}

/// What walks came to: how many there were, what happened, and the most steps it took to settle.
#[derive(Clone, Copy, Debug, Default)]
pub struct Walked {
    pub walks: usize,
    pub tally: Tally,
    pub most_steps: usize,
}

/// The walks from a seed on, as many as wanted, on all processors; or the first seed with a fault.
pub fn walks(seed: u64, n: usize, steps: usize, mistake: Option<Mistake>, checks: &[Check]) -> Result<Walked, (u64, Fault)> {
    let next = AtomicU64::new(seed);
    let end = AtomicU64::new(seed + n as u64);
    let play = || {
        let mut walked = Walked::default();
        loop {
            let seed = next.fetch_add(1, Relaxed);
            if seed >= end.load(Relaxed) {
                return Ok(walked);
            }
            let (walk, result) = walk(seed, steps, mistake, checks);
            match result {
                Ok(most) => walked.most_steps = walked.most_steps.max(most),
                Err(f) => {
                    end.fetch_min(seed, Relaxed);
                    return Err((seed, f));
                }
            }
            walked.walks += 1;
            walked.tally.add(walk.world.tally);
        }
    };
    let threads = available_parallelism().map_or(1, |n| n.get());
    let results: Vec<_> = scope(|s| {
        let playing: Vec<_> = (0..threads).map(|_| s.spawn(play)).collect();
        playing.into_iter().map(|thread| thread.join().expect("a walk panicked")).collect()
    });
    let mut all = Walked::default();
    let mut first: Option<(u64, Fault)> = None;
    for result in results {
        match result {
            Ok(walked) => {
                all.walks += walked.walks;
                all.tally.add(walked.tally);
                all.most_steps = all.most_steps.max(walked.most_steps);
            }
            Err(found) if first.as_ref().is_none_or(|(seed, _)| found.0 < *seed) => first = Some(found),
            Err(_) => {}
        }
    }
    first.map_or(Ok(all), Err)
}

/// Plays events in a new world, as far as they can happen; the fault that it came to, and the events that happened until then.
pub fn replays(rules: &Rules, events: &[Event], checks: &[Check]) -> Option<(Fault, Vec<Event>)> {
    let mut world = World::new(rules.clone(), checks);
    let mut happened = Vec::new();
    for event in events {
        if let Event::Deliver(packet, _) = event
            && !world.wire.contains(packet)
        {
            continue;
        }
        match world.step(event) {
            Ok(false) => {}
            Ok(true) => happened.push(event.clone()),
            Err(f) => {
                happened.push(event.clone());
                return Some((f, happened));
            }
        }
    }
    None
}

/// Leaves out what isn't needed to come to a fault of the same check.
pub fn shortened(rules: &Rules, events: &[Event], checks: &[Check]) -> Option<(Fault, Vec<Event>)> {
    let (mut found, mut events) = replays(rules, events, checks)?;
    let mut length = events.len().div_ceil(2);
    loop {
        let mut at = 0;
        let before = events.len();
        while at < events.len() {
            let mut fewer = events.clone();
            fewer.drain(at..(at + length).min(events.len()));
            match replays(rules, &fewer, checks) {
                Some((f, happened)) if f.check == found.check => (found, events) = (f, happened),
                _ => at += length,
            }
        }
        if length == 1 && events.len() == before {
            return Some((found, events));
        }
        length = length.div_ceil(2);
    }
}
