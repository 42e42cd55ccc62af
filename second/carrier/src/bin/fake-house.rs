//! Stands in for a house in the tests of `link`: `fake-house NUMBER HOUSES`, with the same lines. House 0 has a store in one place, and
//! forgets it where it is killed. The others send it the calls that wait at each tick, so that a packet may be lost.
//! A call to make a volume of one of the sizes below makes the house misbehave.
use second_volumes::{Place, core_room};
use second_wire::{Call, Framed, decode_frame, encode_frame};
use std::collections::BTreeMap;
use std::io::{self, Write, stdin, stdout};
use std::process::exit;
use std::thread::sleep;
use std::time::Duration;

/// It says so on standard error, and exits with status 7.
const EXITS: u64 = 1_000_001;

/// It never answers this call.
const SILENT: u64 = 1_000_002;

/// It reads no further line.
const STUCK: u64 = 1_000_003;

/// It prints what is none of its lines, and the answer to a call that nobody made, and goes on.
const BABBLES: u64 = 1_000_004;

/// It prints packets to itself without end.
const FLOODS: u64 = 1_000_005;

struct House {
    me: usize,
    waiting: BTreeMap<u64, Vec<u8>>,
    place: Place,
    /// what each house was answered already
    given: BTreeMap<(usize, u64), Vec<u8>>,
}

fn main() -> io::Result<()> {
    let words: Vec<usize> = std::env::args().skip(1).map_while(|word| word.parse().ok()).collect();
    let [me, _houses] = words[..] else {
        eprintln!("usage: fake-house NUMBER HOUSES");
        exit(2);
    };
    let sectors = std::fs::metadata("device")?.len() / 512;
    let mut house = House { me, waiting: BTreeMap::new(), place: Place::new(core_room(sectors), false), given: BTreeMap::new() };
    for line in stdin().lines() {
        house.obey(&line?)?;
        say("done")?;
    }
    Ok(())
}

fn say(line: &str) -> io::Result<()> {
    writeln!(stdout(), "{line}")
}

impl House {
    fn obey(&mut self, line: &str) -> io::Result<()> {
        let words: Vec<&str> = line.split(' ').collect();
        match words[..] {
            ["tick"] => self.waiting.iter().try_for_each(|(number, call)| say(&format!("to 0 {}", hex(&encode_frame(*number, call))))),
            ["ask", number, call] => self.ask(number.parse().map_err(io::Error::other)?, unhex(call)),
            ["from", from, packet] => self.from(from.parse().map_err(io::Error::other)?, &unhex(packet)),
            _ => say("refused 1"),
        }
    }

    fn ask(&mut self, number: u64, bytes: Vec<u8>) -> io::Result<()> {
        match Call::decode(&bytes).map(|call| (call.kind, call.numbers[0])) {
            Ok((1, EXITS)) => {
                eprintln!("I am not well");
                exit(7);
            }
            Ok((1, SILENT)) => return Ok(()),
            Ok((1, STUCK)) => sleep(Duration::MAX),
            Ok((1, FLOODS)) => loop {
                say(&format!("to {} 00", self.me))?;
            },
            Ok((1, BABBLES)) => say("how do you do").and_then(|()| say("answer 1 01"))?,
            _ => {}
        }
        self.waiting.insert(number, bytes);
        Ok(())
    }

    /// A packet is a call for house 0, and an answer for any other.
    fn from(&mut self, from: usize, packet: &[u8]) -> io::Result<()> {
        let Framed::Whole { customer, body, .. } = decode_frame(packet) else {
            return say("refused 1");
        };
        if self.me != 0 {
            return self.answered(customer, body);
        }
        let place = &mut self.place;
        let given = self.given.entry((from, customer));
        let answer = given.or_insert_with(|| match Call::decode(body) {
            Ok(call) => place.answer(&call).encode(),
            Err(refusal) => vec![0, refusal],
        });
        let answer = answer.clone();
        if from == 0 {
            return self.answered(customer, &answer);
        }
        say(&format!("to {from} {}", hex(&encode_frame(customer, &answer))))
    }

    fn answered(&mut self, number: u64, answer: &[u8]) -> io::Result<()> {
        match self.waiting.remove(&number) {
            Some(_) => say(&format!("answer {number} {}", hex(answer))),
            None => Ok(()),
        }
    }
}

fn hex(bytes: &[u8]) -> String {
    carrier::words::Hex(bytes).to_string()
}

fn unhex(digits: &str) -> Vec<u8> {
    carrier::words::unhex(digits).unwrap_or_default()
}
