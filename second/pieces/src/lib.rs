//! A sorted map from sectors to places, set and sought as crates/pieces_bench does it with a directory.

use random::Random;
use std::collections::BTreeMap;
use std::hint::black_box;
use std::io::{self, Write};

const SECTOR_BYTES: usize = 512;
const PIECE_SECTORS: u64 = 8192;
const VOLUME_PIECES: u64 = 1024;
const BLANK: [u8; SECTOR_BYTES] = [0; SECTOR_BYTES];
const FILLED: [u8; SECTOR_BYTES] = [7; SECTOR_BYTES];

struct Bench {
    places: BTreeMap<(u64, u64), u64>,
    count: u64,
    version: u64,
    random: Random,
}

/// The volume and sector that is set in a piece.
fn address(piece: u64) -> (u64, u64) {
    (piece / VOLUME_PIECES + 1, PIECE_SECTORS * (piece % VOLUME_PIECES) + piece % PIECE_SECTORS)
}

impl Bench {
    fn new(count: u64) -> Bench {
        Bench { places: BTreeMap::new(), count, version: 0, random: Random::new(0) }
    }

    fn set(&mut self, piece: u64, sector: &[u8; SECTOR_BYTES]) {
        self.version += 1;
        if sector.iter().all(|byte| *byte == 0) {
            self.places.remove(&address(piece));
        } else {
            self.places.insert(address(piece), self.version);
        }
    }

    fn drawn(&mut self) -> u64 {
        self.random.next() % self.count
    }

    fn fill(&mut self) {
        for piece in 0..self.count {
            self.set(piece, black_box(&FILLED));
        }
    }

    /// How many of the sets are of zeros.
    fn set_by_chance(&mut self, times: u64) -> u64 {
        let mut blanks = 0;
        for _ in 0..times {
            let piece = self.drawn();
            if self.random.below(8) == 0 {
                self.set(piece, black_box(&BLANK));
                blanks += 1;
            } else {
                self.set(piece, black_box(&FILLED));
            }
        }
        blanks
    }

    /// How many of the finds find a place.
    fn find_by_chance(&mut self, times: u64) -> u64 {
        let mut found = 0;
        for _ in 0..times {
            let piece = self.drawn();
            if black_box(self.places.get(&address(piece))).is_some() {
                found += 1;
            }
        }
        found
    }
}

/// Prints what crates/pieces_bench prints.
pub fn run(count: u64, times: u64, out: &mut impl Write) -> io::Result<()> {
    let mut bench = Bench::new(count);
    writeln!(out, "begun")?;
    bench.fill();
    writeln!(out, "filled: {count}")?;
    let blanks = bench.set_by_chance(times);
    writeln!(out, "set: {times}, of these zeros {blanks}")?;
    let found = bench.find_by_chance(times);
    writeln!(out, "sought: {times}, found {found}")
}
