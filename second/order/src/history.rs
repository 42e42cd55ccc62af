//! What a rehearsal printed, read: the calls with their lines, the order that it gives, and what can't have been seen of houses at all.
use crate::words;
use second_wire::{Answer, BUILT, Call};
use std::collections::HashMap;
use std::fmt;

/// The refusal of one call too many, which has no moment.
pub const BUSY: Answer = Answer::Refused(11);
/// So many calls may wait at a house.
pub const WAITING: usize = 8;

const HOUSES: u64 = 3;
const SIZE: u64 = 65_536;

/// A call that was made, the line where it was, and its answer with the line of it.
#[derive(Clone, Debug)]
pub struct Made {
    pub number: u64,
    pub house: u64,
    pub call: Call,
    pub line: usize,
    pub answer: Option<(usize, Answer)>,
    /// whether its house fell since, while it waited
    fell: bool,
}

impl Made {
    /// Whether it may have a moment.
    pub fn is_counted(&self) -> bool {
        self.answer.as_ref().is_none_or(|(_, answer)| *answer != BUSY)
    }

    /// Whether its answer says that it changed nothing.
    pub fn changes_nothing(&self) -> bool {
        self.answer.as_ref().is_some_and(|(_, answer)| match answer {
            Answer::Refused(_) | Answer::Full | Answer::Sector(_) => true,
            Answer::Yes => self.call.kind == 5,
            Answer::Number(_) | Answer::Token { .. } => false,
        })
    }

    /// The line by which it was done at the latest.
    pub fn due(&self) -> usize {
        self.answer.as_ref().map_or(usize::MAX, |(line, _)| *line)
    }
}

/// What is printed in the end.
#[derive(Clone, Debug, PartialEq, Eq)]
pub enum Printed {
    Order(Vec<u64>),
    NoOrder,
}

#[derive(Clone, Debug, PartialEq, Eq)]
pub struct Fault {
    pub line: usize,
    pub text: String,
}

impl fmt::Display for Fault {
    fn fmt(&self, f: &mut fmt::Formatter<'_>) -> fmt::Result {
        write!(f, "line {}: {}", self.line, self.text)
    }
}

/// A rehearsal, from a `houses` line on.
#[derive(Clone, Debug)]
pub struct History {
    pub houses: u64,
    pub size: u64,
    /// whether pictures and copies are built
    pub pictured: bool,
    pub calls: Vec<Made>,
    pub printed: Option<Printed>,
    pub cuts: Option<u64>,
    pub faults: Vec<Fault>,
    /// the place of each call by its number
    places: HashMap<u64, usize>,
    down: Vec<bool>,
}

/// The rehearsals of a text. One without a call and without an order is left out.
pub fn read(text: &str) -> Vec<History> {
    let mut all = vec![History::blank(HOUSES, SIZE)];
    for (at, line) in text.lines().enumerate() {
        let words: Vec<&str> = line.split_whitespace().collect();
        if let ["houses", rest @ ..] = words.as_slice() {
            match words::numbers(rest).as_deref() {
                Some(&[houses @ 3..=16, size]) => all.push(History::blank(houses, size)),
                _ => all.last_mut().expect("there is one").fault(at + 1, "not understood"),
            }
        } else {
            all.last_mut().expect("there is one").reads(at + 1, &words);
        }
    }
    all.retain(|h| !h.calls.is_empty() || h.printed.is_some() || !h.faults.is_empty());
    all
}

impl History {
    fn blank(houses: u64, size: u64) -> History {
        History {
            houses,
            size,
            pictured: BUILT.contains(&6),
            calls: Vec::new(),
            printed: None,
            cuts: None,
            faults: Vec::new(),
            places: HashMap::new(),
            down: vec![false; houses as usize],
        }
    }

    /// The place of a call among the calls.
    pub fn place(&self, number: u64) -> Option<usize> {
        self.places.get(&number).copied()
    }

    fn fault(&mut self, line: usize, text: impl Into<String>) {
        self.faults.push(Fault { line, text: text.into() });
    }

    fn reads(&mut self, line: usize, words: &[&str]) {
        let understood = match words {
            ["call", number, house, rest @ ..] => self.reads_call(line, number, house, rest),
            ["answer", number, rest @ ..] => self.reads_answer(line, number, rest),
            ["fell", house] => self.reads_power(line, house, true),
            ["rose", house] => self.reads_power(line, house, false),
            ["order", numbers @ ..] => words::numbers(numbers).map(|order| self.ends(line, Printed::Order(order))),
            ["no", "order"] => {
                self.ends(line, Printed::NoOrder);
                Some(())
            }
            ["cuts", n] => words::number(n).map(|n| self.cuts = Some(n)),
            ["call" | "answer" | "fell" | "rose" | "cuts", ..] => None,
            _ => Some(()),
        };
        if understood.is_none() {
            self.fault(line, "not understood");
        }
    }

    fn ends(&mut self, line: usize, printed: Printed) {
        if self.printed.replace(printed).is_some() {
            self.fault(line, "a second order");
        }
    }

    fn reads_power(&mut self, line: usize, house: &str, falls: bool) -> Option<()> {
        let house = words::number(house)?;
        let Some(down) = self.down.get_mut(house as usize) else {
            self.fault(line, format!("there is no house {house}"));
            return Some(());
        };
        *down = falls;
        if falls {
            self.calls.iter_mut().filter(|c| c.house == house && c.answer.is_none()).for_each(|c| c.fell = true);
        }
        Some(())
    }

    fn reads_call(&mut self, line: usize, number: &str, house: &str, rest: &[&str]) -> Option<()> {
        let (number, house, call) = (words::number(number)?, words::number(house)?, words::call(rest)?);
        match self.down.get(house as usize) {
            None => self.fault(line, format!("there is no house {house}")),
            Some(true) => self.fault(line, format!("call {number} is made at house {house}, which fell")),
            Some(false) => {}
        }
        if self.places.insert(number, self.calls.len()).is_some() {
            self.fault(line, format!("call {number} is made twice"));
        }
        self.calls.push(Made { number, house, call, line, answer: None, fell: false });
        Some(())
    }

    fn reads_answer(&mut self, line: usize, number: &str, rest: &[&str]) -> Option<()> {
        let (number, answer) = (words::number(number)?, words::answer(rest)?);
        let Some(place) = self.place(number) else {
            self.fault(line, format!("call {number} is answered before it is made"));
            return Some(());
        };
        let made = &mut self.calls[place];
        if made.answer.is_some() {
            self.fault(line, format!("call {number} is answered twice"));
        } else if made.fell {
            let house = made.house;
            self.fault(line, format!("call {number} is answered at house {house}, which fell since it was made"));
        } else {
            let busy = answer == BUSY;
            made.answer = Some((line, answer));
            if busy {
                self.checks_busy(line, place);
            }
        }
        Some(())
    }

    /// Where a call is refused as one too many, eight wait.
    fn checks_busy(&mut self, line: usize, place: usize) {
        let Made { number, house, line: made, .. } = self.calls[place];
        let waits = |c: &&Made| c.house == house && c.line < made && !c.fell && c.due() > made;
        let waiting = self.calls.iter().filter(waits).count();
        if waiting < WAITING {
            self.fault(line, format!("call {number} is refused as one too many, and {waiting} wait"));
        }
    }
}
