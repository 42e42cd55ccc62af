//! Plays a script on houses: the calls that wait, and what is said of all that happens.
use crate::network::Network;
use crate::printed::{self, Line};
use crate::process::{Event, News};
use crate::script::{self, Fault, Step};
use crate::words::{Hex, InWords, Milliseconds};
use second_wire::{Answer, Call};
use std::collections::{BTreeMap, VecDeque};
use std::io::{self, Write};
use std::sync::mpsc::Receiver;
use std::time::{Duration, Instant, UNIX_EPOCH};

/// A call that is not answered yet.
struct Waiting {
    /// which call of this script it is, from 1
    call: u64,
    house: usize,
    asked: Instant,
}

/// What the script is held up by.
enum Hold {
    Nothing,
    /// until all calls are answered, or this moment
    Answers(Duration, Instant),
    Pause(Instant),
}

pub struct Player<W> {
    network: Network,
    out: W,
    tick: Duration,
    /// the lines that were not played yet; None is the end
    script: VecDeque<Option<String>>,
    /// how many lines were played
    lines: u64,
    hold: Hold,
    /// by the numbers under which houses got them
    waiting: BTreeMap<u64, Waiting>,
    calls: u64,
    /// what is added to a call for its number: the clock at the start, so that no earlier run on these devices used the number
    base: u64,
    /// whether all lines were understood and all waits succeeded
    sound: bool,
}

impl<W: Write> Player<W> {
    pub fn new(network: Network, tick: Duration, out: W) -> io::Result<Player<W>> {
        let now = UNIX_EPOCH.elapsed().map_err(io::Error::other)?;
        let base = u64::try_from(now.as_micros()).map_err(io::Error::other)?;
        let (script, waiting) = (VecDeque::new(), BTreeMap::new());
        Ok(Player { network, out, tick, script, lines: 0, hold: Hold::Nothing, waiting, calls: 0, base, sound: true })
    }

    /// Plays the script to its end, or to a wait that fails. Answers whether all lines were understood and all waits succeeded.
    pub fn play(&mut self, events: &Receiver<Event>) -> io::Result<bool> {
        let mut tick = Instant::now();
        loop {
            while self.is_free()? {
                match self.script.pop_front() {
                    Some(Some(line)) => self.obey(&line)?,
                    Some(None) => return self.end(),
                    None => break,
                }
            }
            let now = Instant::now();
            if now >= tick {
                self.network.tick();
                tick = now + self.tick;
            }
            match events.recv_timeout(self.wakes(tick).saturating_duration_since(now)) {
                Ok(Event::Script(line)) => self.script.push_back(line),
                Ok(Event::House { house, start, news }) => self.hear(house, start, news)?,
                // no line and no house for so long; and this end of the channel is held by `network` too
                Err(_) => {}
            }
        }
    }

    /// When there is something to do though nothing happens.
    fn wakes(&self, tick: Instant) -> Instant {
        match self.hold {
            Hold::Nothing => tick,
            Hold::Answers(_, until) | Hold::Pause(until) => tick.min(until),
        }
    }

    /// Whether the next line may be played. After a wait that failed none but the end is left.
    fn is_free(&mut self) -> io::Result<bool> {
        let now = Instant::now();
        match self.hold {
            Hold::Answers(most, until) if now >= until && !self.waiting.is_empty() => self.fail(most)?,
            Hold::Answers(..) if !self.waiting.is_empty() => return Ok(false),
            Hold::Pause(until) if now < until => return Ok(false),
            Hold::Nothing | Hold::Answers(..) | Hold::Pause(_) => {}
        }
        self.hold = Hold::Nothing;
        Ok(true)
    }

    fn fail(&mut self, most: Duration) -> io::Result<()> {
        self.sound = false;
        self.script = VecDeque::from([None]);
        writeln!(self.out, "waited for {}, no longer", Milliseconds(most))
    }

    fn end(&mut self) -> io::Result<bool> {
        for Waiting { call, house, .. } in self.waiting.values() {
            writeln!(self.out, "call {call} at {house} is not answered")?;
        }
        Ok(self.sound)
    }

    fn obey(&mut self, line: &str) -> io::Result<()> {
        self.lines += 1;
        match script::parse(line, self.network.houses()) {
            Ok(None) => Ok(()),
            Ok(Some(step)) => self.take(step),
            Err(fault) => {
                self.sound = false;
                let fault = match fault {
                    Fault::NotUnderstood => "not understood",
                    Fault::NoSuchHouse => "no such house",
                };
                writeln!(self.out, "line {}: {fault}", self.lines)
            }
        }
    }

    fn take(&mut self, step: Step) -> io::Result<()> {
        match step {
            Step::At { house, call, words } => self.ask(house, &call, &words),
            Step::Wait(most) => {
                self.hold = Hold::Answers(most, Instant::now() + most);
                Ok(())
            }
            Step::Pause(time) => {
                self.hold = Hold::Pause(Instant::now() + time);
                Ok(())
            }
            Step::Kill(house) if self.network.kill(house) => {
                writeln!(self.out, "house {house} is killed")?;
                self.forget(house)
            }
            Step::Kill(house) => writeln!(self.out, "house {house} is down already"),
            Step::Start(house) if self.network.is_up(house) => writeln!(self.out, "house {house} is up already"),
            Step::Start(house) => {
                self.network.start(house)?;
                writeln!(self.out, "house {house} is started")
            }
            Step::Say(words) => writeln!(self.out, "{words}"),
        }
    }

    fn ask(&mut self, house: usize, call: &Call, words: &str) -> io::Result<()> {
        self.calls += 1;
        let number = self.base + self.calls;
        writeln!(self.out, "call {} at {house}: {words}", self.calls)?;
        if !self.network.tell(house, format!("ask {number} {}", Hex(&call.encode()))) {
            return writeln!(self.out, "call {}: house {house} is down", self.calls);
        }
        self.waiting.insert(number, Waiting { call: self.calls, house, asked: Instant::now() });
        Ok(())
    }

    /// The calls that wait at a house are gone with it.
    fn forget(&mut self, house: usize) -> io::Result<()> {
        for (_, Waiting { call, .. }) in self.waiting.extract_if(.., |_, waiting| waiting.house == house) {
            writeln!(self.out, "call {call}: gone with house {house}")?;
        }
        Ok(())
    }

    fn hear(&mut self, house: usize, start: u64, news: News) -> io::Result<()> {
        if !self.network.is_running(house, start) {
            // what a process had printed that was killed
            return Ok(());
        }
        match news {
            News::Printed(line) => self.heed(house, &line),
            News::Complained(line) => writeln!(self.out, "house {house} complains: {line}"),
            News::Closed => {
                if let Some(ended) = self.network.ended(house) {
                    writeln!(self.out, "house {house} {ended}")?;
                }
                self.forget(house)
            }
        }
    }

    /// Does what a house prints.
    fn heed(&mut self, house: usize, line: &str) -> io::Result<()> {
        let said = printed::parse(line, self.network.houses());
        if said != Some(Line::Done) {
            self.network.trace(house, '>', line);
        }
        match said {
            Some(Line::Done) => {
                self.network.has_done(house);
                Ok(())
            }
            Some(Line::To(to, packet)) => {
                self.network.carry(house, to, packet);
                Ok(())
            }
            Some(Line::Answer(number, bytes)) => self.answer(house, number, &bytes),
            Some(Line::Refused) => writeln!(self.out, "house {house} refuses a line"),
            None => writeln!(self.out, "house {house} prints what is none of its lines: {line}"),
        }
    }

    fn answer(&mut self, house: usize, number: u64, bytes: &[u8]) -> io::Result<()> {
        if self.waiting.get(&number).is_none_or(|waiting| waiting.house != house) {
            return writeln!(self.out, "house {house} answers {number}, which does not wait there");
        }
        let Some(Waiting { call, asked, .. }) = self.waiting.remove(&number) else {
            return Ok(());
        };
        let took = Milliseconds(asked.elapsed());
        match Answer::decode(bytes) {
            Some(answer) => writeln!(self.out, "call {call}: {}, after {took}", InWords(&answer)),
            None => writeln!(self.out, "call {call}: {}, which is no answer, after {took}", Hex(bytes)),
        }
    }
}
