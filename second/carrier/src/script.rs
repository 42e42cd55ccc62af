//! The lines of a script.
use crate::words::unhex;
use second_wire::{Call, SECTOR, shape};
use std::time::Duration;

/// How long `wait` waits where it doesn't say.
const LIMIT: Duration = Duration::from_secs(30);

#[derive(Debug, PartialEq, Eq)]
pub enum Step {
    /// a call at a house
    At {
        house: usize,
        call: Call,
        words: String,
    },
    /// until all calls are answered, at most so long
    Wait(Duration),
    Pause(Duration),
    Kill(usize),
    Start(usize),
    Say(String),
}

#[derive(Debug, PartialEq, Eq)]
pub enum Fault {
    NotUnderstood,
    NoSuchHouse,
}

/// The step that a line tells among so many houses, if it has any word.
pub fn parse(line: &str, houses: usize) -> Result<Option<Step>, Fault> {
    let words: Vec<&str> = line.split_whitespace().collect();
    let house = |word| number(word).and_then(|house| usize::try_from(house).ok().filter(|house| *house < houses).ok_or(Fault::NoSuchHouse));
    Ok(Some(match words[..] {
        [] => return Ok(None),
        ["say", ref said @ ..] => Step::Say(said.join(" ")),
        ["at", at, ref call @ ..] => Step::At { house: house(at)?, call: parse_call(call).ok_or(Fault::NotUnderstood)?, words: call.join(" ") },
        ["wait"] => Step::Wait(LIMIT),
        ["wait", most] => Step::Wait(Duration::from_millis(number(most)?)),
        ["pause", time] => Step::Pause(Duration::from_millis(number(time)?)),
        ["kill", at] => Step::Kill(house(at)?),
        ["start", at] => Step::Start(house(at)?),
        _ => return Err(Fault::NotUnderstood),
    }))
}

fn number(word: &str) -> Result<u64, Fault> {
    word.parse().map_err(|_| Fault::NotUnderstood)
}

fn parse_call(words: &[&str]) -> Option<Call> {
    let (name, rest) = words.split_first()?;
    let kind = match *name {
        "make" => 1,
        "attach" => 2,
        "read" => 3,
        "write" => 4,
        "sync" => 5,
        "picture" => 6,
        "copy" => 7,
        "drop" => 8,
        "drop-picture" => 9,
        _ => return None,
    };
    let (count, bytes) = shape(kind)?;
    let (numbers, content) = rest.split_at_checked(count)?;
    let content = match content {
        [] if bytes == 0 => Vec::new(),
        [digits] if bytes > 0 => sector(&unhex(digits)?)?,
        _ => return None,
    };
    let numbers = numbers.iter().map(|word| word.parse().ok()).collect::<Option<_>>()?;
    Some(Call { kind, numbers, content })
}

/// A sector of one byte, or a whole one.
fn sector(bytes: &[u8]) -> Option<Vec<u8>> {
    match bytes {
        [byte] => Some(vec![*byte; SECTOR]),
        whole if whole.len() == SECTOR => Some(whole.to_vec()),
        _ => None,
    }
}

#[cfg(test)]
mod tests {
    use super::*;

    fn call(words: &str, kind: u8, numbers: &[u64], content: Vec<u8>) -> (String, Step) {
        let call = Call { kind, numbers: numbers.to_vec(), content };
        (format!("at 1 {words}"), Step::At { house: 1, call, words: words.to_string() })
    }

    #[test]
    fn each_call() {
        let whole = format!("write 1 2 3 {}", "0a".repeat(SECTOR));
        for (line, step) in [
            call("make 100", 1, &[100], vec![]),
            call("attach 1", 2, &[1], vec![]),
            call("read 1 2 3", 3, &[1, 2, 3], vec![]),
            call("write 1 2 3 07", 4, &[1, 2, 3], vec![7; SECTOR]),
            call(&whole, 4, &[1, 2, 3], vec![10; SECTOR]),
            call("sync 1 2", 5, &[1, 2], vec![]),
            call("drop 1 2", 8, &[1, 2], vec![]),
            call("drop-picture 4", 9, &[4], vec![]),
        ] {
            assert_eq!(parse(&line, 3), Ok(Some(step)), "{line}");
        }
    }

    #[test]
    fn each_other_step() {
        for (line, step) in [
            (" wait ", Step::Wait(LIMIT)),
            ("wait 5", Step::Wait(Duration::from_millis(5))),
            ("pause 5", Step::Pause(Duration::from_millis(5))),
            ("kill 2", Step::Kill(2)),
            ("start 0", Step::Start(0)),
            ("say  a  word", Step::Say("a word".to_string())),
        ] {
            assert_eq!(parse(line, 3), Ok(Some(step)), "{line}");
        }
        assert_eq!(parse("  ", 3), Ok(None));
    }

    #[test]
    fn no_step() {
        for line in
            ["at 1", "at 1 make", "at 1 make x", "at 1 make 1 2", "at 1 write 1 2 3", "at 1 write 1 2 3 0102", "at x make 1", "kill", "tick 1"]
        {
            assert_eq!(parse(line, 3), Err(Fault::NotUnderstood), "{line}");
        }
        assert_eq!(parse("at 3 make 1", 3), Err(Fault::NoSuchHouse));
        assert_eq!(parse("kill 3", 3), Err(Fault::NoSuchHouse));
    }
}
