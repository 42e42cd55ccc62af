//! Rehearsals drawn by a seed: one place does the calls at random moments, answers come later, and houses fall.
use crate::history::WAITING;
use crate::words::{answer_in_words, call_in_words};
use random::Random;
use second_volumes::{Place, core_room};
use second_wire::{Answer, Call, SECTOR};

/// How a rehearsal is drawn.
#[derive(Clone, Copy, Debug)]
pub struct Shape {
    pub houses: usize,
    pub size: u64,
    /// how many lines are seen
    pub events: usize,
    /// how many sectors of a volume are used, and how many different bytes are written
    pub sectors: usize,
    pub bytes: usize,
    /// of ten steps, how many make a call: at 3 calls are answered about as fast as they are made
    pub hurry: usize,
    /// of ten calls, how many make, attach or drop, or are about pictures
    pub heads: usize,
    /// whether pictures and copies are built
    pub pictured: bool,
}

impl Shape {
    /// Seven houses, 300 lines; crowded or not, much or little written over.
    pub fn by(seed: u64) -> Shape {
        let mut random = Random::new(seed);
        let sectors = [1, 2, 5, 14][random.below(4)];
        let bytes = [2, 4, 20, 250][random.below(4)];
        let (hurry, heads) = (3 + random.below(4), 1 + random.below(2));
        Shape { houses: 7, size: 65_536, events: 300, sectors, bytes, hurry, heads, pictured: false }
    }
}

/// What is printed of a rehearsal, the order of moments with it.
pub fn drawn(seed: u64, shape: &Shape) -> String {
    let mut drawing = Drawing::new(seed, shape);
    while drawing.lines.len() < shape.events {
        drawing.step();
    }
    let order: Vec<String> = drawing.order.iter().map(u64::to_string).collect();
    let (houses, size, lines) = (shape.houses, shape.size, drawing.lines.join("\n"));
    format!("houses {houses} {size}\n{lines}\norder {}\ncuts 0\n", order.join(" "))
}

struct Open {
    number: u64,
    house: usize,
    call: Call,
    answer: Option<Answer>,
    /// whether its house fell, so that nobody is told
    lost: bool,
}

struct Drawing<'a> {
    shape: &'a Shape,
    random: Random,
    place: Place,
    open: Vec<Open>,
    up: Vec<bool>,
    made: u64,
    order: Vec<u64>,
    lines: Vec<String>,
}

impl Drawing<'_> {
    fn new(seed: u64, shape: &Shape) -> Drawing<'_> {
        let place = Place::new(core_room(shape.size), shape.pictured);
        let (open, order, lines) = (Vec::new(), Vec::new(), Vec::new());
        Drawing { shape, random: Random::new(seed), place, open, up: vec![true; shape.houses], made: 0, order, lines }
    }

    fn step(&mut self) {
        if self.random.below(60) == 0 {
            self.power();
        } else if self.random.below(10) < self.shape.hurry {
            self.makes();
        } else if self.random.below(2) == 0 {
            self.does();
        } else {
            self.answers();
        }
    }

    /// A house falls, or all that fell rise.
    fn power(&mut self) {
        let house = self.random.below(self.shape.houses);
        if self.up[house] {
            self.up[house] = false;
            self.open.iter_mut().filter(|o| o.house == house).for_each(|o| o.lost = true);
            // most of what nobody is told of is never done either
            let random = &mut self.random;
            self.open.retain(|o| !o.lost || (o.answer.is_none() && random.below(3) == 0));
            self.lines.push(format!("fell {house}"));
        } else {
            self.up[house] = true;
            self.lines.push(format!("rose {house}"));
        }
    }

    fn makes(&mut self) {
        let house = self.random.below(self.shape.houses);
        if !self.up[house] {
            return;
        }
        let call = self.some_call();
        self.made += 1;
        let number = self.made;
        self.lines.push(format!("call {number} {house} {}", call_in_words(&call)));
        if self.open.iter().filter(|o| o.house == house && !o.lost).count() < WAITING {
            self.open.push(Open { number, house, call, answer: None, lost: false });
        } else {
            self.lines.push(format!("answer {number} refused 11"));
        }
    }

    fn does(&mut self) {
        let waiting: Vec<usize> = (0..self.open.len()).filter(|i| self.open[*i].answer.is_none()).collect();
        if waiting.is_empty() {
            return;
        }
        let i = waiting[self.random.below(waiting.len())];
        self.open[i].answer = Some(self.place.answer(&self.open[i].call));
        self.order.push(self.open[i].number);
        if self.open[i].lost {
            self.open.swap_remove(i);
        }
    }

    fn answers(&mut self) {
        let ready: Vec<usize> = (0..self.open.len()).filter(|i| self.open[*i].answer.is_some()).collect();
        if ready.is_empty() {
            return;
        }
        let open = self.open.swap_remove(ready[self.random.below(ready.len())]);
        let answer = answer_in_words(&open.answer.expect("it is ready"));
        self.lines.push(format!("answer {} {answer}", open.number));
    }

    /// A call on a few volumes and sectors, mostly under the present token.
    fn some_call(&mut self) -> Call {
        let (held, next) = (self.place.held_now(), self.place.next_number());
        let random = &mut self.random;
        let (mut volume, mut token) = if held.is_empty() { (1, 1) } else { held[random.below(held.len())] };
        match random.below(24) {
            0 => volume += 1,
            1 | 2 => token += 1,
            3 => token = token.saturating_sub(1),
            _ => token = token.max(1),
        }
        let sector = random.below(self.shape.sectors) as u64;
        let (kind, numbers) = if held.is_empty() {
            (1, vec![20])
        } else if random.below(10) < self.shape.heads {
            match random.below(12) {
                0 | 1 => (1, vec![[20, 5, 1][random.below(3)]]),
                2..=7 => (2, vec![volume]),
                8 => (8, vec![volume, token]),
                9 => (7, vec![1 + random.below(next as usize) as u64]),
                10 => (9, vec![1 + random.below(next as usize) as u64]),
                _ => (6, vec![volume, token]),
            }
        } else {
            match random.below(20) {
                0 => (5, vec![volume, token]),
                1..=9 => (4, vec![volume, token, sector]),
                _ => (3, vec![volume, token, sector]),
            }
        };
        let content = if kind == 4 { vec![random.below(self.shape.bytes) as u8; SECTOR] } else { Vec::new() };
        Call { kind, numbers, content }
    }
}

/// An answer of the same kind of call that is not this one.
pub fn another(answer: &Answer, random: &mut Random) -> Answer {
    match answer {
        Answer::Sector(content) => Answer::Sector(vec![content[0].wrapping_add(1 + random.below(3) as u8); SECTOR]),
        Answer::Token { token, size } if random.below(2) == 0 && *token > 1 => Answer::Token { token: token - 1, size: *size },
        Answer::Token { token, size } => Answer::Token { token: token + 1, size: *size },
        Answer::Number(n) => Answer::Number(n + 1),
        Answer::Yes => Answer::Refused(4),
        Answer::Full => Answer::Yes,
        Answer::Refused(4) => Answer::Refused(2),
        Answer::Refused(_) => Answer::Refused(4),
    }
}
