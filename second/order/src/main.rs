//! `order [FILE]`: checks what a rehearsal printed, from a file or from standard input.
use second_order::history::read;
use second_order::report::report;
use std::io::Read;
use std::process::ExitCode;

fn main() -> ExitCode {
    let mut words = std::env::args().skip(1);
    let text = match (words.next(), words.next()) {
        (None, _) => {
            let mut text = String::new();
            std::io::stdin().read_to_string(&mut text).map(|_| text)
        }
        (Some(file), None) => std::fs::read_to_string(file),
        (Some(_), Some(_)) => {
            eprintln!("usage: order [FILE]");
            return ExitCode::FAILURE;
        }
    };
    let histories = match text {
        Ok(text) => read(&text),
        Err(error) => {
            eprintln!("{error}");
            return ExitCode::FAILURE;
        }
    };
    if histories.is_empty() {
        println!("nothing to check");
        return ExitCode::FAILURE;
    }
    let mut right = true;
    for history in histories {
        let report = report(&history);
        println!("houses {} {}: {} calls", history.houses, history.size, history.calls.len());
        print!("{report}");
        right &= report.is_right();
    }
    if right { ExitCode::SUCCESS } else { ExitCode::FAILURE }
}
