//! What a house does at each event, but for the blocks: the agreement, bundles, catching up.
use crate::messages::{Agreeing, Bundle, Command, Item, Part, Proposal, Recovery, Reply, Session, Sessions, Status, Tail, Want, is_new, rank};
use crate::mistakes::Mistake;
use crate::rules::Rules;
use crate::service::Rest;
use std::rc::Rc;

/// Which versions the parts of a pass were of.
pub type Span = Option<(u64, u64)>;

/// Where a pass over all blocks is, and whether something was asked for since the last tick.
#[derive(Clone, Debug, PartialEq, Eq, Hash)]
pub struct Pass {
    pub key: u64,
    pub span: Span,
    pub asked: bool,
}

/// What a house remembers. lead: 0, or the ballot that it leads and one.
#[derive(Clone, Debug, PartialEq, Eq, Hash)]
pub struct Memory {
    pub me: usize,
    pub incarnation: u64,
    pub counter: u64,
    pub lead: u64,
    pub quiet: u64,
    pub waiting: Vec<Item>,
    pub way: Option<Bundle>,
    pub heard: Vec<Bundle>,
    pub pass: Pass,
}

/// Who gets this house's status.
#[derive(Clone, Copy, Debug, PartialEq, Eq)]
pub enum Whom {
    Nobody,
    One(usize),
    Others,
}

/// What is to be sent when all is stored.
#[derive(Clone, Debug)]
pub struct Sends {
    pub status: Whom,
    pub bundle: bool,
    pub replies: Vec<usize>,
    pub wants: Option<usize>,
    pub serves: Option<(usize, Want)>,
}

/// What is to be done on blocks and rest.
#[derive(Clone, Debug)]
pub enum Work {
    Rests,
    Applies(Command),
    Takes(usize, Rc<Part>),
    Replaces(Rest),
}

/// In the midst of an event.
pub struct Turn<'a> {
    pub rules: &'a Rules,
    pub agreeing: Agreeing,
    pub sessions: Sessions,
    pub memory: Memory,
    pub told: Rc<[Reply]>,
    pub sends: Sends,
    pub work: Work,
}

pub fn silent() -> Sends {
    Sends { status: Whom::Nobody, bundle: false, replies: Vec::new(), wants: None, serves: None }
}

fn new_pass() -> Pass {
    Pass { key: 0, span: None, asked: true }
}

pub fn is_copy(house: usize) -> bool {
    house < 3
}

fn owner(ballot: u64) -> usize {
    (ballot % 3) as usize
}

/// The next ballot above p that belongs to the house.
fn next_ballot(me: usize, p: u64) -> u64 {
    3 * (p / 3 + 1) + me as u64
}

fn widened(version: u64, span: Span) -> (u64, u64) {
    span.map_or((version, version), |(low, high)| (low.min(version), high.max(version)))
}

fn higher<'a>(mine: &'a Proposal, theirs: &'a Proposal) -> &'a Proposal {
    if rank(mine) < rank(theirs) { theirs } else { mine }
}

/// How many calls wait at a house.
pub fn count(memory: &Memory) -> usize {
    memory.way.as_ref().map_or(0, |b| b.calls.len()) + memory.waiting.len()
}

impl Turn<'_> {
    fn has(&self, mistake: Mistake) -> bool {
        self.rules.has(mistake)
    }

    fn is_new(&self, bundle: &Bundle) -> bool {
        if self.has(Mistake::CounterAlone) {
            return bundle.counter > self.sessions[bundle.house].counter;
        }
        is_new(bundle, &self.sessions)
    }

    fn saying_to(&mut self, r: usize) {
        if self.sends.status != Whom::Others {
            self.sends.status = Whom::One(r);
        }
    }

    fn saying(&mut self) {
        self.sends.status = Whom::Others;
    }

    fn raised(&mut self, p: u64) {
        self.agreeing.promised = p;
    }

    fn proposed(&mut self, p: u64, k: Command) {
        self.raised(p);
        self.agreeing.proposal = Some((p, k));
    }

    fn ranging(&mut self, p: u64, base: u64, top: u64) {
        self.raised(p);
        self.agreeing.recovery = Recovery::Recovers { base, top };
    }

    // BUNDLES

    fn remembered(&mut self, b: Bundle) {
        self.memory.heard.retain(|other| other.house != b.house);
        self.memory.heard.insert(0, b);
    }

    /// A bundle is heard by a copy: it waits, or its replies are sent.
    pub fn on_bundle(&mut self, b: &Bundle) {
        if !is_copy(self.memory.me) {
            return;
        }
        if self.is_new(b) {
            self.remembered(b.clone());
        } else {
            self.sends.replies.insert(0, b.house);
        }
    }

    /// A bundle of all that wait, if none is under way.
    pub fn pack(&mut self) {
        if self.memory.way.is_some() || self.memory.waiting.is_empty() {
            return;
        }
        self.memory.counter += 1;
        let calls = std::mem::take(&mut self.memory.waiting).into();
        let Memory { me, incarnation, counter, .. } = self.memory;
        let bundle = Bundle { house: me, incarnation, counter, calls };
        self.memory.way = Some(bundle.clone());
        self.remembered(bundle);
        self.sends.bundle = true;
    }

    /// The bundle under way is done, if these are its replies.
    pub fn settle(&mut self, s: &Session) {
        let Some(b) = &self.memory.way else { return };
        let same = self.has(Mistake::SettlesByCounter) || b.incarnation == s.incarnation;
        if same && b.counter == s.counter {
            self.memory.way = None;
            self.told = s.replies.clone();
        }
    }

    fn settle_here(&mut self) {
        if is_copy(self.memory.me) {
            let session = self.sessions[self.memory.me].clone();
            self.settle(&session);
        }
    }

    fn undone(&self) -> Vec<Bundle> {
        self.memory.heard.iter().filter(|b| self.is_new(b)).cloned().collect()
    }

    fn is_open(&self) -> bool {
        is_copy(self.memory.me)
            && self.agreeing.recovery == Recovery::Level
            && (self.memory.lead == self.agreeing.promised + 1 || (self.memory.lead > 0 && self.has(Mistake::LeadsOn)))
            && (rank(&self.agreeing.proposal) == 0 || self.has(Mistake::ProposesAgain))
    }

    /// Who leads, and has nothing pending, proposes what waits.
    pub fn forward(&mut self) {
        if !self.is_open() {
            return;
        }
        let undone = self.undone();
        if !undone.is_empty() {
            self.proposed(self.agreeing.promised, undone.into());
            self.saying();
        }
    }

    pub fn goes_on(&mut self) {
        self.settle_here();
        self.pack();
        self.forward();
    }

    // A STATUS of copy r. p is the higher of both promises.

    fn raising(&mut self, r: usize, p: u64, x: &Status) {
        if self.agreeing.promised < p || x.promised < p {
            self.saying_to(r);
        }
        self.raised(p);
    }

    fn telling(&mut self, r: usize, p: u64) {
        self.raised(p);
        self.saying_to(r);
    }

    fn applying(&mut self, p: u64, b: u64, k: &Command) {
        self.raised(p);
        self.agreeing.version += 1;
        self.agreeing.last = b;
        if !self.has(Mistake::KeepsProposal) {
            self.agreeing.proposal = None;
        }
        self.work = Work::Applies(k.clone());
        self.sends.replies = k.iter().map(|bundle| bundle.house).collect();
    }

    /// I am behind, and recover.
    fn recovering(&mut self, r: usize, p: u64) {
        let version = self.agreeing.version;
        self.ranging(p, version, version);
        self.memory.pass = new_pass();
        self.sends.wants = Some(r);
    }

    /// r is ahead: by one, and what it applied is what I proposed; or else I recover.
    fn ahead(&mut self, r: usize, p: u64, x: &Status) {
        match self.agreeing.proposal.clone() {
            Some((b, k)) if x.version == self.agreeing.version + 1 && (x.last <= b || self.has(Mistake::LearnsByVersion)) => {
                self.applying(p, x.last, &k);
            }
            _ => self.recovering(r, p),
        }
    }

    fn takes_over(&mut self, p: u64, proposal: Proposal) {
        self.raised(p);
        if let Some((_, k)) = proposal {
            self.proposed(p, k);
            self.saying();
        }
        self.memory.lead = p + 1;
    }

    fn chosen(&self, x: &Status) -> Proposal {
        let mine = &self.agreeing.proposal;
        if self.has(Mistake::IgnoresTheirs) {
            return mine.clone();
        }
        if self.has(Mistake::TakesLower) && mine.is_some() && x.proposal.is_some() {
            return if rank(mine) < rank(&x.proposal) { mine.clone() } else { x.proposal.clone() };
        }
        higher(mine, &x.proposal).clone()
    }

    fn may_lead(&mut self, r: usize, p: u64, x: &Status) {
        let proposed = rank(&self.agreeing.proposal) == p + 1 && !self.has(Mistake::LeadsAgain);
        if owner(p) == self.memory.me && x.promised == p && !proposed {
            self.takes_over(p, self.chosen(x));
        } else {
            self.raising(r, p, x);
        }
    }

    /// r is as far as I am: it leads and proposes, so I accept.
    fn even(&mut self, r: usize, p: u64, x: &Status) {
        let Some((b, k)) = &x.proposal else { return self.may_lead(r, p, x) };
        if owner(p) == r && x.promised == p && *b == p {
            self.saying_to(r);
            self.applying(p, p, k);
        } else if self.has(Mistake::AcceptsBelow) && owner(*b) == r && x.promised == *b {
            self.saying_to(r);
            self.applying(p, *b, k);
        } else {
            self.may_lead(r, p, x);
        }
    }

    fn hears(&mut self, r: usize, p: u64, x: &Status) {
        if self.agreeing.version < x.version {
            self.ahead(r, p, x);
        } else if x.version < self.agreeing.version {
            self.telling(r, p);
        } else {
            self.even(r, p, x);
        }
    }

    /// I recover: whoever is no less far may be asked.
    fn asks_on(&mut self, r: usize, p: u64, x: &Status) {
        if !x.recovering && self.agreeing.version <= x.version && !self.memory.pass.asked {
            self.memory.pass.asked = true;
            self.sends.wants = Some(r);
        }
        self.raised(p);
    }

    fn accepts_though_recovering(&mut self, r: usize, p: u64, x: &Status) -> bool {
        let Some((b, k)) = &x.proposal else { return false };
        let fits = !x.recovering && x.version == self.agreeing.version && owner(p) == r && x.promised == p && *b == p;
        if fits {
            self.saying_to(r);
            self.applying(p, p, k);
        }
        fits
    }

    fn status_of(&mut self, r: usize, p: u64, x: &Status) {
        match self.agreeing.recovery {
            Recovery::Recovers { .. } => {
                if !(self.has(Mistake::RecoveringAccepts) && self.accepts_though_recovering(r, p, x)) {
                    self.asks_on(r, p, x);
                }
            }
            Recovery::Level if x.recovering && !self.has(Mistake::RecoveringCounts) => self.telling(r, p),
            Recovery::Level => self.hears(r, p, x),
        }
    }

    /// Whoever owns a ballot that is no lower than my promise is a leader that I hear.
    fn noted(&mut self, r: usize, x: &Status) {
        if owner(x.promised) == r && self.agreeing.promised <= x.promised {
            self.memory.quiet = 0;
        }
    }

    pub fn on_status(&mut self, r: usize, x: &Status) {
        if is_copy(self.memory.me) && is_copy(r) && r != self.memory.me {
            let p = self.agreeing.promised.max(x.promised);
            self.noted(r, x);
            self.status_of(r, p, x);
        }
    }

    // CATCHING UP

    fn is_asked(&self, w: &Want) -> bool {
        let Recovery::Recovers { base, top } = self.agreeing.recovery else { return false };
        let range = (w.base == base && w.top == top) || self.has(Mistake::OtherRange);
        range && (w.key == self.memory.pass.key || self.has(Mistake::OtherKey))
    }

    /// A part is taken if it is what I ask for, and its version is no lower than mine.
    pub fn on_part(&mut self, r: usize, x: &Rc<Part>) {
        let no_lower = self.agreeing.version <= x.version || self.has(Mistake::LowerPart);
        if is_copy(self.memory.me) && self.is_asked(&x.asked) && no_lower {
            self.work = Work::Takes(r, x.clone());
        }
    }

    fn ended(&mut self, p: u64) {
        self.raised(p);
        self.agreeing.recovery = Recovery::Level;
        if self.has(Mistake::DropsProposal) {
            self.agreeing.proposal = None;
        }
    }

    fn adopted(&mut self, p: u64, version: u64, last: u64) {
        let last = if self.has(Mistake::LastKept) { self.agreeing.last } else { last };
        self.agreeing = Agreeing { promised: p, version, last, proposal: None, recovery: Recovery::Level };
    }

    /// The pass is over: at one version, which is the copy's from now on, or the next begins.
    fn passed(&mut self, r: usize, p: u64, x: &Part, rest: &Rest, done: &Sessions) {
        let (low, high) = widened(x.version, self.memory.pass.span);
        if low == high || self.has(Mistake::TwoVersions) {
            if x.version == self.agreeing.version {
                self.ended(p);
            } else {
                self.adopted(p, x.version, x.last);
            }
            if !self.has(Mistake::SessionsKept) {
                self.sessions = done.clone();
            }
            if !self.has(Mistake::RestKept) {
                self.work = Work::Replaces(rest.clone());
            }
            self.saying_to(r);
        } else {
            self.ranging(p, low, high);
            self.memory.pass = new_pass();
            self.sends.wants = Some(r);
        }
    }

    /// The part's blocks are taken over.
    pub fn taken(&mut self, r: usize, x: &Part) {
        self.work = Work::Rests;
        let raised = self.agreeing.promised.max(x.promised);
        let p = if self.has(Mistake::PromiseKept) { self.agreeing.promised } else { raised };
        let Recovery::Recovers { base, top } = self.agreeing.recovery else { return };
        match &x.tail {
            Tail::More(key) => {
                let base = if self.has(Mistake::BaseKept) { base } else { base.min(x.version) };
                let top = if self.has(Mistake::TopKept) { top } else { top.max(x.version) };
                self.ranging(p, base, top);
                self.memory.pass = Pass { key: *key, span: Some(widened(x.version, self.memory.pass.span)), asked: true };
                self.sends.wants = Some(r);
            }
            Tail::Ends(rest, done) => self.passed(r, p, x, rest, done),
        }
    }

    /// There is no place for them: all is forgotten, and it begins again from nothing.
    pub fn begins_again(&mut self, r: usize) {
        self.work = Work::Rests;
        if !self.has(Mistake::RangeStays) {
            self.ranging(self.agreeing.promised, 0, 0);
        }
        self.memory.pass = new_pass();
        self.sends.wants = Some(r);
    }

    /// Blocks are asked for: a copy that doesn't recover gives them.
    pub fn on_want(&mut self, r: usize, w: Want) {
        if is_copy(self.memory.me) && self.agreeing.recovery == Recovery::Level {
            self.sends.serves = Some((r, w));
        }
    }

    // A TICK

    /// Who heard no leader for so many ticks takes the next ballot; copies wait differently long.
    fn elect(&mut self) {
        let patience = self.rules.patience.map_or(1, |least| least + self.memory.me as u64);
        if self.memory.quiet + 1 < patience {
            self.memory.quiet += 1;
        } else {
            self.raised(next_ballot(self.memory.me, self.agreeing.promised));
            self.memory.quiet = 0;
            self.saying();
        }
    }

    /// The bundle under way is sent again.
    pub fn on_tick(&mut self) {
        self.sends.bundle = true;
        if !is_copy(self.memory.me) {
            return;
        }
        match self.agreeing.recovery {
            Recovery::Recovers { .. } => {
                self.memory.pass.asked = false;
                self.saying();
            }
            Recovery::Level if self.memory.lead == self.agreeing.promised + 1 => self.saying(),
            Recovery::Level => self.elect(),
        }
    }

    // A CALL

    pub fn queued(&mut self, item: Item) {
        self.memory.waiting.insert(0, item);
    }
}
