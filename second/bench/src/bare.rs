//! Writes of one sector, each with a sync, on a file.
use crate::{SECTOR, SECTORS};
use random::Random;
use std::fs::{File, remove_file};
use std::io::{self, Write};
use std::os::unix::fs::FileExt;
use std::path::Path;
use std::time::{Duration, Instant};

/// Sectors of a page.
const PAGE: usize = 8;

/// A file of so many sectors, all written and synced, a page at a time: of a file that is written at once the kernel keeps large pages, and
/// goes through all of one at each write of a sector.
pub fn zeros(path: &Path, sectors: usize) -> io::Result<File> {
    let mut file = File::create(path)?;
    for _ in 0..sectors.div_ceil(PAGE) {
        file.write_all(&[0; SECTOR * PAGE])?;
    }
    file.sync_all()?;
    Ok(file)
}

/// How many there are per second.
pub fn rate(folder: &Path, time: Duration) -> io::Result<f64> {
    let path = folder.join("bare");
    let file = zeros(&path, SECTORS)?;
    let mut random = Random::new(1);
    let begin = Instant::now();
    let mut count = 0.0;
    while begin.elapsed() < time {
        let sector = random.below(SECTORS) as u64;
        file.write_all_at(&[random.next() as u8; SECTOR], SECTOR as u64 * sector)?;
        file.sync_data()?;
        count += 1.0;
    }
    let rate = count / begin.elapsed().as_secs_f64();
    remove_file(path)?;
    Ok(rate)
}
