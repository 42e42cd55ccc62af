//! What is agreed on, what a house keeps of it, and what houses say to each other.
use crate::service::{Answer, Call, Rest, Stamped};
use std::rc::Rc;

/// Three houses with copies, and one without.
pub const HOUSES: usize = 4;

#[derive(Clone, Debug, PartialEq, Eq, Hash)]
pub struct Item {
    pub id: u64,
    pub call: Call,
}

/// The calls that a house sends together.
#[derive(Clone, Debug, PartialEq, Eq, Hash)]
pub struct Bundle {
    pub house: usize,
    pub incarnation: u64,
    pub counter: u64,
    pub calls: Rc<[Item]>,
}

pub type Command = Rc<[Bundle]>;

#[derive(Clone, Debug, PartialEq, Eq, Hash)]
pub struct Reply {
    pub id: u64,
    pub reply: Answer,
}

/// The last bundle of a house that was done.
#[derive(Clone, Debug, Default, PartialEq, Eq, Hash)]
pub struct Session {
    pub incarnation: u64,
    pub counter: u64,
    pub replies: Rc<[Reply]>,
}

pub type Sessions = [Session; HOUSES];

/// A copy that recovers has each block as of some version from base to top.
#[derive(Clone, Copy, Debug, PartialEq, Eq, Hash)]
pub enum Recovery {
    Level,
    Recovers { base: u64, top: u64 },
}

pub type Proposal = Option<(u64, Command)>;

/// 0 for none, so that a proposal of any ballot ranks higher.
pub fn rank(proposal: &Proposal) -> u64 {
    proposal.as_ref().map_or(0, |(ballot, _)| ballot + 1)
}

#[derive(Clone, Debug, PartialEq, Eq, Hash)]
pub struct Agreeing {
    pub promised: u64,
    pub version: u64,
    pub last: u64,
    pub proposal: Proposal,
    pub recovery: Recovery,
}

#[derive(Clone, Debug, PartialEq, Eq, Hash)]
pub struct Status {
    pub promised: u64,
    pub version: u64,
    pub last: u64,
    pub proposal: Proposal,
    pub recovering: bool,
}

impl Status {
    pub fn of(a: &Agreeing) -> Status {
        let recovering = a.recovery != Recovery::Level;
        Status { promised: a.promised, version: a.version, last: a.last, proposal: a.proposal.clone(), recovering }
    }
}

#[derive(Clone, Copy, Debug, PartialEq, Eq, Hash)]
pub struct Want {
    pub base: u64,
    pub top: u64,
    pub key: u64,
}

/// How a part ends: more is to be asked for from a key on, or it was the last.
#[derive(Clone, Debug, PartialEq, Eq, Hash)]
pub enum Tail {
    More(u64),
    Ends(Rest, Box<Sessions>),
}

#[derive(Clone, Debug, PartialEq, Eq, Hash)]
pub struct Part {
    pub asked: Want,
    pub promised: u64,
    pub version: u64,
    pub last: u64,
    pub whole: bool,
    pub floor: u64,
    pub blocks: Vec<Stamped>,
    pub tail: Tail,
}

#[derive(Clone, Debug, PartialEq, Eq, Hash)]
pub enum Message {
    Bundled(Bundle),
    Done(Session),
    Told(Status),
    Asked(Want),
    Given(Rc<Part>),
}

/// Is number (i, c) above (j, d)?
pub fn above(i: u64, c: u64, j: u64, d: u64) -> bool {
    j < i || (j == i && d < c)
}

pub fn is_new(bundle: &Bundle, done: &Sessions) -> bool {
    let last = &done[bundle.house];
    above(bundle.incarnation, bundle.counter, last.incarnation, last.counter)
}
