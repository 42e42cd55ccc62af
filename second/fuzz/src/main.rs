//! `wire-fuzz [INPUTS [SEED]]`: a million inputs of seed 1 unless told otherwise.
use std::process::ExitCode;

fn main() -> ExitCode {
    let mut words = std::env::args().skip(1);
    let inputs = words.next().map_or(Ok(1_000_000), |word| word.parse());
    let seed = words.next().map_or(Ok(1), |word| word.parse());
    let (Ok(inputs), Ok(seed)) = (inputs, seed) else {
        eprintln!("usage: wire-fuzz [INPUTS [SEED]]");
        return ExitCode::FAILURE;
    };
    match wire_fuzz::play(seed, inputs) {
        Ok(tally) => {
            println!("{inputs} inputs of seed {seed}, no difference: {tally:?}");
            ExitCode::SUCCESS
        }
        Err(difference) => {
            eprintln!("{difference}");
            ExitCode::FAILURE
        }
    }
}
