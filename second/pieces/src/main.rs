//! pieces-bench PIECES TIMES: what crates/pieces_bench does, with a plain sorted map.

use std::{env, io, process};

fn asked() -> Option<(u64, u64)> {
    let mut words = env::args().skip(1);
    let count = words.next()?.parse().ok().filter(|count| *count > 0)?;
    let times = words.next()?.parse().ok()?;
    Some((count, times))
}

fn main() -> io::Result<()> {
    let Some((count, times)) = asked() else {
        eprintln!("usage: pieces-bench PIECES TIMES");
        process::exit(2);
    };
    pieces_bench::run(count, times, &mut io::stdout())
}
