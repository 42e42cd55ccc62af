//! `copies-explore walks [N [SEED]]`, `all [long]`, `mistakes [N [MISTAKE]]`, `settle [N [SEED]]`, `show MISTAKE SEED`.
use second_copies::all::explore;
use second_copies::bounds::{Bounds, LONG, LONGEST, LOOKS};
use second_copies::history::Check;
use second_copies::mistakes::Mistake;
use second_copies::walks::{STEPS, settle, shortened, walk, walks};
use std::process::ExitCode;
use std::time::Instant;

fn main() -> ExitCode {
    let words: Vec<String> = std::env::args().skip(1).collect();
    let words: Vec<&str> = words.iter().map(String::as_str).collect();
    let number = |i: usize, or: u64| words.get(i).map_or(Some(or), |word| word.parse().ok());
    let sound = match (words.first(), number(1, 20_000), number(2, 1)) {
        (Some(&"walks"), Some(n), Some(seed)) => plays(n as usize, seed),
        (Some(&"settle"), Some(n), Some(seed)) => settles(n as usize, seed),
        (Some(&"mistakes"), Some(n), _) => mistakes(n as usize, words.get(2).copied()),
        (Some(&"all"), ..) => all(if words.len() > 1 { LONGEST } else { LONG }),
        (Some(&"show"), _, Some(seed)) if words.len() > 2 => shows(words[1], seed),
        _ => {
            eprintln!("usage: copies-explore walks [N [SEED]] | all [long] | mistakes [N [MISTAKE]] | settle [N [SEED]] | show MISTAKE SEED");
            false
        }
    };
    if sound { ExitCode::SUCCESS } else { ExitCode::FAILURE }
}

fn plays(n: usize, seed: u64) -> bool {
    let start = Instant::now();
    match walks(seed, n, STEPS, None, Check::ALL) {
        Ok(walked) => println!("no fault in {:.1?}: {walked:?}", start.elapsed()),
        Err((seed, fault)) => {
            println!("seed {seed}: {fault:?}");
            return false;
        }
    }
    true
}

fn settles(n: usize, seed: u64) -> bool {
    let start = Instant::now();
    match settle(seed, n) {
        Ok((most, all)) => println!("{n} worlds settled in {:.1?}: at most {most} steps, {} on average", start.elapsed(), all / n.max(1)),
        Err((seed, fault)) => {
            println!("seed {seed}: {fault:?}");
            return false;
        }
    }
    true
}

/// Each of the bounds on a thread of its own.
fn all(bounds: &[Bounds]) -> bool {
    let explores = |bounds: Bounds| {
        let start = Instant::now();
        match explore(None, Check::ALL, bounds) {
            Ok(explored) => println!("{bounds:?}: no fault in {:.1?}: {explored:?}", start.elapsed()),
            Err((fault, events, _)) => {
                println!("{bounds:?}: {fault:?} after {events:#?}");
                return false;
            }
        }
        true
    };
    std::thread::scope(|s| {
        let exploring: Vec<_> = bounds.iter().map(|bounds| s.spawn(move || explores(*bounds))).collect();
        exploring.into_iter().all(|thread| thread.join().unwrap_or(false))
    })
}

/// For each planted mistake: the first walk that finds it, the first that finds it by what is promised, and after how many states exploration does.
fn mistakes(n: usize, only: Option<&str>) -> bool {
    for mistake in Mistake::ALL.iter().filter(|m| only.is_none_or(|name| name == format!("{m:?}"))) {
        let found = |checks| match walks(1, n, STEPS, Some(*mistake), checks) {
            Ok(_) => format!("not in {n}"),
            Err((seed, fault)) => format!("{seed} ({:?})", fault.check),
        };
        let looks = LOOKS.iter().find_map(|bounds| explore(Some(*mistake), Check::ALL, Bounds { states: 300_000, ..*bounds }).err());
        let explored = looks.map_or("no".to_string(), |(fault, events, states)| format!("{states} states, {} events ({:?})", events.len(), fault.check));
        println!("| {mistake:?} | {} | {} | {} | {explored} |", mistake.what(), found(Check::ALL), found(Check::PROMISED));
    }
    true
}

/// The shortened walk of a mistake.
fn shows(name: &str, seed: u64) -> bool {
    let mistake = Mistake::ALL.iter().find(|m| format!("{m:?}") == name).copied();
    for checks in [Check::ALL, Check::PROMISED] {
        let (walk, result) = walk(seed, STEPS, mistake, checks);
        println!("{mistake:?} {result:?} {:?}", walk.world.rules);
        if let Some((fault, events)) = shortened(&walk.world.rules, &walk.events, checks) {
            events.iter().for_each(|event| println!("{event:?}"));
            println!("{fault:?}");
        }
    }
    true
}
