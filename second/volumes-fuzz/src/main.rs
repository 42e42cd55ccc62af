//! `volumes-fuzz [RUNS [SEED]]`: a thousand runs of a thousand calls of seed 1 unless told otherwise.
use std::process::ExitCode;
use std::time::Instant;

fn main() -> ExitCode {
    let mut words = std::env::args().skip(1);
    let runs = words.next().map_or(Ok(1000), |word| word.parse());
    let seed = words.next().map_or(Ok(1), |word| word.parse());
    let (Ok(runs), Ok(seed)) = (runs, seed) else {
        eprintln!("usage: volumes-fuzz [RUNS [SEED]]");
        return ExitCode::FAILURE;
    };
    let start = Instant::now();
    match volumes_fuzz::play(seed, runs) {
        Ok(tally) => {
            println!("seed {seed}, no difference in {} s: {tally:?}", start.elapsed().as_secs());
            ExitCode::SUCCESS
        }
        Err(difference) => {
            eprintln!("{difference}");
            ExitCode::FAILURE
        }
    }
}
