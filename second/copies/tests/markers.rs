//! Where all blocks are sent, markers must be among them: an empty block that is left out comes to be kept with a stamp that is too low,
//! and a copy that later asks for what changed isn't told of it.
use second_copies::history::{Check, Fault};
use second_copies::messages::Message;
use second_copies::mistakes::Mistake;
use second_copies::rules::Rules;
use second_copies::service::Call;
use second_copies::world::{Cut, Event, World};

struct Play(World);

impl Play {
    fn does(&mut self, event: Event) -> Result<(), Fault> {
        assert!(self.0.step(&event)?, "{event:?}");
        Ok(())
    }

    fn asks(&mut self, house: usize, call: Call) -> Result<(), Fault> {
        let id = self.0.calls;
        self.does(Event::Ask(house, id, call, Cut::No))
    }

    fn ticks(&mut self, house: usize) -> Result<(), Fault> {
        self.does(Event::Tick(house, Cut::No))
    }

    /// The latest packet of its kind.
    fn passes(&mut self, from: usize, to: usize, kind: fn(&Message) -> bool) -> Result<(), Fault> {
        let there = self.0.wire.iter().rev().find(|p| p.from == from && p.to == to && kind(&p.what));
        let packet = there.expect("a packet was sent").clone();
        self.does(Event::Deliver(packet, Cut::No))
    }

    fn status(&mut self, from: usize, to: usize) -> Result<(), Fault> {
        self.passes(from, to, |m| matches!(m, Message::Told(_)))
    }

    fn catches_up(&mut self, copy: usize, source: usize) -> Result<(), Fault> {
        self.passes(copy, source, |m| matches!(m, Message::Asked(_)))?;
        self.passes(source, copy, |m| matches!(m, Message::Given(_)))
    }
}

fn play(mistake: Option<Mistake>) -> Result<(), Fault> {
    let rules = Rules { mistake, patience: None, capacity: 2, limit: 4, forgets: true, portion: 3 };
    let mut p = Play(World::new(rules, Check::PROMISED));
    for i in 0..3 {
        p.does(Event::Rise(i))?;
    }
    // copies 1 and 2: block 3 is written, and a marker is forgotten, so that the floor is 2
    p.ticks(1)?;
    p.status(1, 2)?;
    p.status(2, 1)?;
    p.asks(1, Call::Write { key: 3, block: 88 })?;
    p.asks(1, Call::Write { key: 0, block: 0 })?;
    p.asks(1, Call::Write { key: 1, block: 0 })?;
    for _ in 0..2 {
        p.status(1, 2)?;
        p.status(2, 1)?;
    }
    // copy 1 proposes to empty block 3, copy 2 accepts, copy 1 isn't told
    p.asks(1, Call::Write { key: 3, block: 0 })?;
    p.status(1, 2)?;
    // copy 0 hears copy 2, catches up from it, and is given all blocks
    p.ticks(0)?;
    p.status(0, 2)?;
    p.status(2, 0)?;
    p.catches_up(0, 2)?;
    // copy 0 leads with copy 2, and they do a call
    p.ticks(0)?;
    p.status(0, 2)?;
    p.status(2, 0)?;
    p.asks(0, Call::Read { key: 0 })?;
    p.status(0, 2)?;
    p.status(2, 0)?;
    // copy 1 is two behind, and catches up from copy 0: only what changed is given
    p.ticks(0)?;
    p.status(0, 1)?;
    p.catches_up(1, 0)
}

#[test]
fn with_markers() {
    play(None).unwrap();
}

#[test]
fn without_markers() {
    assert_eq!(play(Some(Mistake::MarkersLeftOut)).unwrap_err().check, Check::Blocks);
}
