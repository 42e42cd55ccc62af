//! A house with its blocks: what it stores, and what an event leaves and sends.
use crate::copy::{Memory, Pass, Turn, Whom, Work, count, silent};
use crate::messages::{Agreeing, Bundle, Command, Item, Message, Part, Recovery, Reply, Session, Sessions, Status, Tail, Want, is_new};
use crate::mistakes::Mistake;
use crate::rules::Rules;
use crate::service::{Answer, Kept, Rest, effect};
use std::rc::Rc;

#[derive(Clone, Debug, PartialEq, Eq, Hash)]
pub struct Disk {
    pub incarnation: u64,
    pub agreeing: Agreeing,
    pub sessions: Sessions,
    pub rest: Rest,
    pub kept: Kept,
}

impl Disk {
    pub fn blank() -> Disk {
        let agreeing = Agreeing { promised: 0, version: 0, last: 0, proposal: None, recovery: Recovery::Level };
        Disk { incarnation: 0, agreeing, sessions: Sessions::default(), rest: Rest::default(), kept: Kept::default() }
    }
}

#[derive(Clone, Debug)]
pub enum In {
    From(usize, Message),
    Ask(Item),
    Tick,
}

/// No answer: busy.
#[derive(Clone, Debug, PartialEq, Eq, Hash)]
pub enum Out {
    To(usize, Message),
    Tell(u64, Option<Answer>),
}

/// What happened to blocks in an event, for the checks and counts.
#[derive(Clone, Debug, PartialEq, Eq, Hash)]
pub enum Did {
    Nothing,
    Applied(Command),
    Took { whole: bool },
    Ended,
    Adopted,
    Ranged,
    BeganAgain,
}

#[derive(Clone, Debug)]
pub struct Ended {
    pub stored: Disk,
    pub memory: Memory,
    pub out: Vec<Out>,
    pub did: Did,
}

struct Whole<'a> {
    turn: Turn<'a>,
    incarnation: u64,
    rest: Rest,
    kept: Kept,
    did: Did,
}

impl<'a> Whole<'a> {
    fn begins(rules: &'a Rules, memory: &Memory, disk: &Disk) -> Whole<'a> {
        let turn = Turn {
            rules,
            agreeing: disk.agreeing.clone(),
            sessions: disk.sessions.clone(),
            memory: memory.clone(),
            told: Rc::default(),
            sends: silent(),
            work: Work::Rests,
        };
        Whole { turn, incarnation: disk.incarnation, rest: disk.rest.clone(), kept: disk.kept.clone(), did: Did::Nothing }
    }

    /// A bundle is done, and its house's session is its replies.
    fn bundle_done(&mut self, version: u64, bundle: &Bundle) {
        let rules = self.turn.rules;
        let last = &self.turn.sessions[bundle.house];
        let new = if rules.has(Mistake::CounterAlone) { bundle.counter > last.counter } else { is_new(bundle, &self.turn.sessions) };
        if !new {
            return;
        }
        let mut replies = Vec::new();
        for item in bundle.calls.iter() {
            let done = effect(rules, item.call, &self.rest, |key| self.kept.look(key));
            self.kept = self.kept.write(rules, &done.rest, version, done.change);
            self.rest = done.rest;
            replies.push(Reply { id: item.id, reply: done.reply });
        }
        self.turn.sessions[bundle.house] =
            Session { incarnation: bundle.incarnation, counter: bundle.counter, replies: replies.into() };
    }

    fn works(&mut self) {
        match std::mem::replace(&mut self.turn.work, Work::Rests) {
            Work::Rests | Work::Replaces(_) => {}
            Work::Applies(command) => {
                let version = self.turn.agreeing.version;
                for bundle in command.iter() {
                    self.bundle_done(version, bundle);
                }
                self.did = Did::Applied(command);
            }
            Work::Takes(r, part) => self.stowed(r, &part),
        }
    }

    fn stowed(&mut self, r: usize, x: &Part) {
        let next = match &x.tail {
            Tail::More(key) => Some(*key),
            Tail::Ends(..) => None,
        };
        let version = self.turn.agreeing.version;
        match self.kept.take(self.turn.rules, &self.rest, x.whole, x.asked.key, next, x.floor, &x.blocks) {
            None => {
                self.turn.begins_again(r);
                self.kept = Kept::default();
                self.did = Did::BeganAgain;
            }
            Some(kept) => {
                self.turn.taken(r, x);
                self.kept = kept;
                if let Work::Replaces(rest) = std::mem::replace(&mut self.turn.work, Work::Rests) {
                    self.rest = rest;
                }
                self.did = match (&self.turn.agreeing.recovery, &x.tail) {
                    (Recovery::Level, _) if self.turn.agreeing.version == version => Did::Ended,
                    (Recovery::Level, _) => Did::Adopted,
                    (_, Tail::Ends(..)) => Did::Ranged,
                    (_, Tail::More(_)) => Did::Took { whole: x.whole },
                };
            }
        }
    }

    // WHAT IS SENT, when all is stored

    fn to_others(&self, message: &Message, out: &mut Vec<Out>) {
        out.extend((0..3).filter(|j| *j != self.turn.memory.me).map(|j| Out::To(j, message.clone())));
    }

    fn is_whole(&self, q: &Want) -> bool {
        let below_floor = q.base < self.kept.floor && !self.turn.rules.has(Mistake::FloorIgnored);
        let above = self.turn.agreeing.version < q.top && !self.turn.rules.has(Mistake::TopIgnored);
        below_floor || above
    }

    fn part_of(&self, q: Want) -> Part {
        let whole = self.is_whole(&q);
        let portion = self.kept.portion(self.turn.rules, &self.rest, whole, q.base, q.key);
        let tail = match portion.next {
            Some(key) => Tail::More(key),
            None => Tail::Ends(self.rest.clone(), Box::new(self.turn.sessions.clone())),
        };
        let Agreeing { promised, version, last, .. } = self.turn.agreeing;
        Part { asked: q, promised, version, last, whole, floor: self.kept.floor, blocks: portion.blocks, tail }
    }

    fn posts(&self) -> Vec<Out> {
        let Turn { agreeing, sessions, memory, sends, .. } = &self.turn;
        let mut out: Vec<Out> = self.turn.told.iter().map(|reply| Out::Tell(reply.id, Some(reply.reply))).collect();
        match sends.status {
            Whom::Nobody => {}
            Whom::One(r) => out.push(Out::To(r, Message::Told(Status::of(agreeing)))),
            Whom::Others => self.to_others(&Message::Told(Status::of(agreeing)), &mut out),
        }
        if let (true, Some(bundle)) = (sends.bundle, &memory.way) {
            self.to_others(&Message::Bundled(bundle.clone()), &mut out);
        }
        out.extend(sends.replies.iter().map(|h| Out::To(*h, Message::Done(sessions[*h].clone()))));
        if let (Some(r), Recovery::Recovers { base, top }) = (sends.wants, agreeing.recovery) {
            out.push(Out::To(r, Message::Asked(Want { base, top, key: memory.pass.key })));
        }
        if let Some((r, want)) = sends.serves {
            out.push(Out::To(r, Message::Given(Rc::new(self.part_of(want)))));
        }
        out
    }

    fn finishes(self) -> Ended {
        let out = self.posts();
        let stored = Disk {
            incarnation: self.incarnation,
            agreeing: self.turn.agreeing,
            sessions: self.turn.sessions,
            rest: self.rest,
            kept: self.kept,
        };
        Ended { stored, memory: self.turn.memory, out, did: self.did }
    }

    fn got(&mut self, r: usize, message: &Message) {
        match message {
            Message::Bundled(b) => {
                self.turn.on_bundle(b);
                self.turn.forward();
            }
            Message::Done(s) => {
                self.turn.settle(s);
                self.turn.pack();
                self.turn.forward();
            }
            Message::Told(x) => {
                self.turn.on_status(r, x);
                self.works();
                self.turn.goes_on();
            }
            Message::Asked(q) => self.turn.on_want(r, *q),
            Message::Given(x) => {
                self.turn.on_part(r, x);
                self.works();
                self.turn.goes_on();
            }
        }
    }
}

/// An event, as one change of what is stored and remembered.
pub fn acts(rules: &Rules, event: &In, memory: &Memory, disk: &Disk) -> Ended {
    let mut whole = Whole::begins(rules, memory, disk);
    match event {
        In::From(r, message) => whole.got(*r, message),
        In::Ask(item) => {
            let most = if rules.has(Mistake::BusyEarly) { 7 } else { 8 };
            if count(memory) >= most {
                return Ended { stored: disk.clone(), memory: memory.clone(), out: vec![Out::Tell(item.id, None)], did: Did::Nothing };
            }
            whole.turn.queued(item.clone());
            whole.turn.pack();
            whole.turn.forward();
        }
        In::Tick => {
            whole.turn.on_tick();
            whole.turn.goes_on();
        }
    }
    whole.finishes()
}

/// A house comes up.
pub fn wakes(rules: &Rules, me: usize, disk: &Disk) -> (Disk, Memory) {
    let mut disk = disk.clone();
    if !rules.has(Mistake::IncarnationKept) || disk.incarnation == 0 {
        disk.incarnation += 1;
    }
    let version = disk.agreeing.version;
    if let (Recovery::Recovers { base, top }, true) = (&mut disk.agreeing.recovery, rules.has(Mistake::RangeForgotten)) {
        (*base, *top) = (version, version);
    }
    let memory = Memory {
        me,
        incarnation: disk.incarnation,
        counter: 0,
        lead: 0,
        quiet: 0,
        waiting: Vec::new(),
        way: None,
        heard: Vec::new(),
        pass: Pass { key: 0, span: None, asked: false },
    };
    (disk, memory)
}
