//! All orders of events of three copies, within bounds: every packet that was ever sent may come at any time and again, power may fail
//! before and after each event. What only sends is done at once, since who has been sent more can do all that who was sent less can.
//! Where bundles and replies aren't on the wire, each status that a copy ever stored may come to the others, whether it was sent or not.
//! A tick at a level copy that doesn't lead takes a ballot at once. States are told apart by hashes of 64 bits.
use crate::bounds::Bounds;
use crate::copy::Memory;
use crate::history::{Check, Fault, History, fault, holds};
use crate::house::{Did, Disk, In, Out, acts, wakes};
use crate::messages::{Command, Item, Message, Recovery, Status};
use crate::mistakes::Mistake;
use crate::numbered::{Fast, Numbered, Quick};
use crate::rules::Rules;
use crate::service::{Answer, Call};
use std::collections::{HashMap, HashSet};
use std::hash::Hash;
use std::rc::Rc;

/// What was gone through. Whole: nothing within the bounds was left out.
#[derive(Clone, Copy, Debug, Default)]
pub struct Explored {
    pub states: usize,
    pub steps: usize,
    pub depth: usize,
    pub houses: usize,
    pub packets: usize,
    pub sequences: usize,
    pub most_commands: usize,
    pub whole: bool,
}

/// The calls that are made, in their order.
const CALLS: [Call; 4] = [
    Call::Write { key: 3, block: 7 },
    Call::Write { key: 0, block: 5 },
    Call::Write { key: 3, block: 0 },
    Call::Drop { group: 0 },
];

#[derive(Clone, Copy, Debug, PartialEq, Eq, Hash)]
enum Happens {
    Packet(u32),
    Call(u8),
    Tick,
}

/// What an event leaves at a house.
#[derive(Default)]
struct Outcome {
    house: u32,
    /// the house, if it fell after the event and came up again
    fallen: u32,
    elects: bool,
    applied: Option<Command>,
    sent: Vec<(usize, u32)>,
    told: Vec<(u64, Option<Answer>)>,
    fault: Option<Fault>,
}

/// Three houses, what was sent to each, the one sequence, and what is left of the bounds.
#[derive(Clone, Copy, PartialEq, Eq, Hash)]
struct State {
    houses: [u32; 3],
    inboxes: [u32; 3],
    sequence: u32,
    ballots: u8,
    calls: u8,
    falls: u8,
}

/// How a state came from another.
#[derive(Clone, Copy)]
struct Step {
    from: u32,
    house: u8,
    happens: Option<Happens>,
    falls: bool,
}

/// What the packets of an inbox do at a house: they change it, or only more is sent.
#[derive(Default)]
struct Moves {
    changing: Vec<u32>,
    sent: Vec<(usize, u32)>,
}

struct Explorer {
    rules: Rules,
    checks: Vec<Check>,
    houses: Numbered<(Memory, Disk)>,
    packets: Numbered<(usize, Message)>,
    inboxes: Numbered<Vec<u32>>,
    sequences: Numbered<Vec<Command>>,
    histories: Vec<Rc<History>>,
    outcomes: HashMap<(u32, Happens), Rc<Outcome>, Fast>,
    fallen: HashMap<u32, u32, Fast>,
    added: HashMap<(u32, u32), u32, Fast>,
    shown: HashSet<(u32, u32), Fast>,
    moves: HashMap<(u32, u32), Rc<Moves>, Fast>,
    seen: HashSet<u64, Fast>,
    states: Vec<State>,
    steps: Vec<Step>,
    counted: usize,
    bundles: bool,
    places: u64,
}

fn start(rules: &Rules, me: usize) -> (Memory, Disk) {
    let (disk, memory) = wakes(rules, me, &Disk::blank());
    (memory, disk)
}

/// Goes through all states within the bounds; a fault is told with the events that came to it.
pub fn explore(mistake: Option<Mistake>, checks: &[Check], bounds: Bounds) -> Result<Explored, (Fault, Vec<String>, usize)> {
    let rules = Rules { mistake, patience: None, capacity: 2, limit: 2, forgets: false, portion: 1 };
    let mut explorer = Explorer::new(rules, checks, bounds);
    let mut explored = Explored { whole: true, ..Explored::default() };
    let mut at = 0;
    let mut level_ends = 1;
    while at < explorer.states.len() {
        if explorer.states.len() >= bounds.states {
            explored.whole = false;
            break;
        }
        if at == level_ends {
            explored.depth += 1;
            level_ends = explorer.states.len();
        }
        if let Err((fault, step)) = explorer.leaves(at as u32) {
            return Err((fault, explorer.tells(step), explorer.states.len()));
        }
        at += 1;
    }
    explored.states = explorer.states.len();
    explored.steps = explorer.counted;
    explored.houses = explorer.houses.values.len();
    explored.packets = explorer.packets.values.len();
    explored.sequences = explorer.sequences.values.len();
    explored.most_commands = explorer.sequences.values.iter().map(|s| s.len()).max().unwrap_or(0);
    Ok(explored)
}

impl Explorer {
    fn new(rules: Rules, checks: &[Check], bounds: Bounds) -> Explorer {
        let mut explorer = Explorer {
            checks: checks.to_vec(),
            houses: Numbered::new(),
            packets: Numbered::new(),
            inboxes: Numbered::new(),
            sequences: Numbered::new(),
            histories: vec![Rc::new(History::blank())],
            outcomes: HashMap::default(),
            fallen: HashMap::default(),
            added: HashMap::default(),
            shown: HashSet::default(),
            moves: HashMap::default(),
            seen: HashSet::default(),
            states: Vec::new(),
            steps: Vec::new(),
            counted: 0,
            bundles: bounds.bundles,
            places: bounds.places,
            rules,
        };
        let houses = [0, 1, 2].map(|me| explorer.houses.number(start(&explorer.rules, me)));
        let empty = explorer.inboxes.number(Vec::new());
        let sequence = explorer.sequences.number(Vec::new());
        let Bounds { ballots, calls, falls, .. } = bounds;
        let first = State { houses, inboxes: [empty; 3], sequence, ballots, calls, falls };
        explorer.states.push(first);
        explorer.steps.push(Step { from: 0, house: 0, happens: None, falls: false });
        explorer
    }

    fn watched(&self, result: Result<(), Fault>) -> Result<(), Fault> {
        result.or_else(|f| if self.checks.contains(&f.check) { Err(f) } else { Ok(()) })
    }

    /// Adds all states that one event leaves.
    fn leaves(&mut self, from: u32) -> Result<(), (Fault, Step)> {
        let state = self.states[from as usize];
        for house in 0..3 {
            let moves = self.moves(house, state.houses[house], state.inboxes[house]);
            let packets = moves.changing.iter().map(|packet| Happens::Packet(*packet));
            let calls = (state.calls > 0).then_some(Happens::Call(state.calls));
            for happens in packets.chain([Happens::Tick]).chain(calls) {
                let step = Step { from, house: house as u8, happens: Some(happens), falls: false };
                self.happens(&state, step, happens).map_err(|f| (f, step))?;
            }
            if state.falls > 0 {
                let step = Step { from, house: house as u8, happens: None, falls: true };
                let mut next = state;
                next.houses[house] = self.fallen(state.houses[house]);
                next.falls -= 1;
                self.adds(next, step).map_err(|f| (f, step))?;
            }
        }
        Ok(())
    }

    fn happens(&mut self, state: &State, step: Step, happens: Happens) -> Result<(), Fault> {
        let house = usize::from(step.house);
        let before = state.houses[house];
        let outcome = self.outcome(house, before, happens);
        if outcome.elects && state.ballots == 0 {
            return Ok(());
        }
        let mut next = *state;
        next.ballots -= u8::from(outcome.elects);
        next.calls -= u8::from(matches!(happens, Happens::Call(_)));
        if let Some(f) = &outcome.fault {
            return Err(f.clone());
        }
        if let Some(command) = &outcome.applied {
            next.sequence = self.applies(state.sequence, self.version(before), command)?;
        }
        if state.falls > 0 && outcome.fallen != self.fallen(before) {
            let mut next = next;
            next.houses[house] = outcome.fallen;
            next.falls -= 1;
            self.adds(next, Step { falls: true, ..step })?;
        }
        let mut sent = next;
        for (to, packet) in &outcome.sent {
            sent.inboxes[*to] = self.with(sent.inboxes[*to], *packet);
        }
        if state.falls > 0 && self.rules.has(Mistake::SendsFirst) {
            let mut unstored = sent;
            unstored.houses[house] = self.fallen(before);
            unstored.sequence = state.sequence;
            unstored.falls -= 1;
            self.adds(unstored, Step { falls: true, ..step })?;
        }
        sent.houses[house] = outcome.house;
        self.told(&outcome, sent.sequence)?;
        self.adds(sent, step)
    }

    fn version(&self, house: u32) -> u64 {
        self.houses.values[house as usize].1.agreeing.version
    }

    fn outcome(&mut self, me: usize, house: u32, happens: Happens) -> Rc<Outcome> {
        if let Some(outcome) = self.outcomes.get(&(house, happens)) {
            return outcome.clone();
        }
        let there = self.houses.get(house);
        let (memory, disk) = &*there;
        let event = match happens {
            Happens::Packet(packet) => {
                let packet = self.packets.get(packet);
                In::From(packet.0, packet.1.clone())
            }
            Happens::Call(left) => In::Ask(Item { id: u64::from(left), call: CALLS[usize::from(left) % CALLS.len()] }),
            Happens::Tick => In::Tick,
        };
        let ended = acts(&self.rules, &event, memory, disk);
        if ended.stored.agreeing.version > self.places {
            // a house may let any event pass
            let fallen = self.fallen(house);
            return self.notes(house, happens, Outcome { house, fallen, ..Outcome::default() });
        }
        let mut sent = Vec::new();
        let mut told = Vec::new();
        let mut result = self.watched(holds(disk, &ended.stored));
        for out in ended.out {
            match out {
                Out::To(_, Message::Bundled(_) | Message::Done(_)) if !self.bundles => {}
                Out::To(to, what) => {
                    if let Message::Told(status) = &what
                        && *status != Status::of(&ended.stored.agreeing)
                    {
                        result = result.and(self.watched(fault(Check::Stored, format!("house {me} says {status:?}"))));
                    }
                    sent.push((to, self.packets.number((me, what))));
                }
                Out::Tell(id, answer) => told.push((id, answer)),
            }
        }
        if !self.bundles && ended.stored.agreeing != disk.agreeing {
            let status = self.packets.number((me, Message::Told(Status::of(&ended.stored.agreeing))));
            sent.extend((0..3).filter(|to| *to != me).map(|to| (to, status)));
        }
        let elects = happens == Happens::Tick && ended.stored.agreeing.promised > disk.agreeing.promised;
        let (fallen_disk, fallen_memory) = wakes(&self.rules, me, &ended.stored);
        let applied = match ended.did {
            Did::Applied(command) => Some(command),
            _ => None,
        };
        let fallen = self.houses.number((fallen_memory, fallen_disk));
        let house_after = self.houses.number((ended.memory, ended.stored));
        self.notes(house, happens, Outcome { house: house_after, fallen, elects, applied, sent, told, fault: result.err() })
    }

    fn notes(&mut self, house: u32, happens: Happens, outcome: Outcome) -> Rc<Outcome> {
        let outcome = Rc::new(outcome);
        self.outcomes.insert((house, happens), outcome.clone());
        outcome
    }

    /// The house, if it fell and came up again.
    fn fallen(&mut self, house: u32) -> u32 {
        if let Some(fallen) = self.fallen.get(&house) {
            return *fallen;
        }
        let there = self.houses.get(house);
        let (disk, memory) = wakes(&self.rules, there.0.me, &there.1);
        let fallen = self.houses.number((memory, disk));
        self.fallen.insert(house, fallen);
        fallen
    }

    fn with(&mut self, inbox: u32, packet: u32) -> u32 {
        if let Some(there) = self.added.get(&(inbox, packet)) {
            return *there;
        }
        let mut packets = (*self.inboxes.get(inbox)).clone();
        if let Err(at) = packets.binary_search(&packet) {
            packets.insert(at, packet);
        }
        let number = self.inboxes.number(packets);
        self.added.insert((inbox, packet), number);
        number
    }

    /// The sequence, with a command at a place.
    fn applies(&mut self, sequence: u32, place: u64, command: &Command) -> Result<u32, Fault> {
        let commands = self.sequences.get(sequence);
        match commands.get(place as usize) {
            Some(there) if there == command => Ok(sequence),
            Some(there) => {
                self.watched(fault(Check::Sequence, format!("place {place}: {there:?} and {command:?}")))?;
                Ok(sequence)
            }
            None => {
                let mut history = (*self.histories[sequence as usize]).clone();
                let result = history.applied(&self.rules, place, command);
                self.watched(result)?;
                let mut longer = (*commands).clone();
                longer.push(command.clone());
                let number = self.sequences.number(longer);
                if number as usize == self.histories.len() {
                    self.histories.push(Rc::new(history));
                }
                Ok(number)
            }
        }
    }

    fn told(&self, outcome: &Outcome, sequence: u32) -> Result<(), Fault> {
        for (id, answer) in &outcome.told {
            let there = self.histories[sequence as usize].reply(*id);
            if answer.is_none() || *answer != there {
                self.watched(fault(Check::Answer, format!("call {id}: {answer:?}, {there:?}")))?;
            }
        }
        Ok(())
    }

    fn moves(&mut self, me: usize, house: u32, inbox: u32) -> Rc<Moves> {
        if let Some(moves) = self.moves.get(&(house, inbox)) {
            return moves.clone();
        }
        let mut moves = Moves::default();
        for packet in self.inboxes.get(inbox).iter() {
            let outcome = self.outcome(me, house, Happens::Packet(*packet));
            if outcome.house != house || outcome.fault.is_some() || !outcome.told.is_empty() {
                moves.changing.push(*packet);
            } else {
                moves.sent.extend(&outcome.sent);
            }
        }
        let moves = Rc::new(moves);
        self.moves.insert((house, inbox), moves.clone());
        moves
    }

    /// What can be sent without any change is sent at once: from a state with more packets whatever can be come to from one with fewer.
    fn with_all_sent(&mut self, mut state: State) -> State {
        loop {
            let before = state.inboxes;
            for me in 0..3 {
                let moves = self.moves(me, state.houses[me], state.inboxes[me]);
                for (to, packet) in &moves.sent {
                    state.inboxes[*to] = self.with(state.inboxes[*to], *packet);
                }
            }
            if state.inboxes == before {
                return state;
            }
        }
    }

    /// Checks a state, and adds it if it is new.
    fn adds(&mut self, state: State, step: Step) -> Result<(), Fault> {
        self.counted += 1;
        let state = self.with_all_sent(state);
        let mut hash = Quick::default();
        state.hash(&mut hash);
        if !self.seen.insert(hash.0) {
            return Ok(());
        }
        for house in state.houses {
            if self.shown.insert((house, state.sequence)) {
                let history = self.histories[state.sequence as usize].clone();
                self.watched(history.shows(&self.houses.values[house as usize].1))?;
            }
        }
        self.watched(self.alone(&state))?;
        self.states.push(state);
        self.steps.push(step);
        Ok(())
    }

    fn alone(&self, state: &State) -> Result<(), Fault> {
        let copies = state.houses.map(|house| &self.houses.values[house as usize].1.agreeing);
        for (i, a) in copies.iter().enumerate().filter(|(_, a)| a.recovery != Recovery::Level) {
            for (j, b) in copies.iter().enumerate().filter(|(j, _)| *j != i) {
                if b.recovery != Recovery::Level || b.version < a.version {
                    return fault(Check::Alone, format!("copies {i}: {a:?} and {j}: {b:?}"));
                }
            }
        }
        Ok(())
    }

    /// The events up to a step.
    fn tells(&self, last: Step) -> Vec<String> {
        let mut told = Vec::new();
        let mut step = last;
        loop {
            let falls = if step.falls { ", falls and comes up" } else { "" };
            let what = match step.happens {
                Some(Happens::Packet(packet)) => format!("{:?}", self.packets.values[packet as usize]),
                Some(other) => format!("{other:?}"),
                None => String::new(),
            };
            told.push(format!("house {}: {what}{falls}", step.house));
            if step.from == 0 {
                break;
            }
            step = self.steps[step.from as usize];
        }
        told.reverse();
        told
    }
}
