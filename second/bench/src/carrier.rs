//! Carries packets between houses, and asks the next call where one is answered.
use crate::inlet::{Carried, Inlet};
use crate::{HOUSES, SECTORS};
use random::Random;
use std::io::{self, Read, Write};
use std::os::unix::net::UnixStream;
use std::sync::atomic::{AtomicBool, AtomicU64, Ordering::Relaxed};
use std::sync::mpsc::Sender;
use std::sync::{Mutex, MutexGuard, PoisonError};
use std::time::UNIX_EPOCH;

/// Longer than any line of a house.
const BUFFER: usize = 1 << 21;

/// What the threads share.
pub struct Shared {
    inlets: [Mutex<Inlet>; HOUSES],
    done: [AtomicU64; HOUSES],
    /// the number of the last call, which is when it was asked, in nanoseconds since 1970: so no house saw it before
    last: AtomicU64,
    pub volume: AtomicU64,
    pub token: AtomicU64,
    /// whether the next call is asked where one is answered
    pub goes_on: AtomicBool,
    pub waiting: AtomicU64,
    /// how long each call that was answered took, in nanoseconds
    took: Mutex<Vec<u64>>,
}

/// The clock in nanoseconds since 1970.
fn now() -> u64 {
    UNIX_EPOCH.elapsed().map_or(0, |time| u64::try_from(time.as_nanos()).unwrap_or(u64::MAX))
}

impl Shared {
    pub fn new(inlets: [Inlet; HOUSES]) -> Shared {
        Shared {
            inlets: inlets.map(Mutex::new),
            done: Default::default(),
            last: 0.into(),
            volume: 0.into(),
            token: 0.into(),
            goes_on: false.into(),
            waiting: 0.into(),
            took: Mutex::default(),
        }
    }

    fn inlet(&self, house: usize) -> MutexGuard<'_, Inlet> {
        self.inlets[house].lock().unwrap_or_else(PoisonError::into_inner)
    }

    pub fn took(&self) -> MutexGuard<'_, Vec<u64>> {
        self.took.lock().unwrap_or_else(PoisonError::into_inner)
    }

    /// A number that no call had.
    fn number(&self) -> u64 {
        let after = |last: u64| now().max(last + 1);
        self.last.fetch_update(Relaxed, Relaxed, |last| Some(after(last))).map_or(0, after)
    }

    /// What was carried till now.
    pub fn carried(&self) -> Carried {
        (0..HOUSES).map(|house| self.inlet(house).carried).sum()
    }

    /// A call, in digits.
    pub fn ask(&self, house: usize, call: &str) -> io::Result<()> {
        let number = self.number();
        let mut inlet = self.inlet(house);
        writeln!(inlet.tell(), "ask {number} {call}")?;
        inlet.flush()
    }

    /// A write of a random sector, to be told by `flush`.
    fn ask_write(&self, house: usize, random: &mut Random) -> io::Result<()> {
        let number = self.number();
        let [volume, token] = [&self.volume, &self.token].map(|number| number.load(Relaxed));
        let sector = random.below(SECTORS);
        let eight = format!("{:016x}", random.next());
        let mut inlet = self.inlet(house);
        let line = inlet.tell();
        write!(line, "ask {number} 04{volume:016x}{token:016x}{sector:016x}")?;
        for _ in 0..64 {
            line.extend_from_slice(eight.as_bytes());
        }
        line.push(b'\n');
        Ok(())
    }

    /// So many writes more wait at a house.
    pub fn ask_writes(&self, house: usize, count: usize) -> io::Result<()> {
        let mut random = Random::new(now());
        self.waiting.fetch_add(count as u64, Relaxed);
        for _ in 0..count {
            self.ask_write(house, &mut random)?;
        }
        self.inlet(house).flush()
    }

    /// Tells a house that the clock ticked, where it has done all that it was told with the last tick.
    pub fn tick(&self, house: usize, ticked: &mut u64) -> io::Result<()> {
        let mut inlet = self.inlet(house);
        if self.done[house].load(Relaxed) >= *ticked {
            inlet.tell().extend_from_slice(b"tick\n");
            *ticked = inlet.told;
        }
        inlet.flush()
    }
}

/// Hears what a house prints, till its end. Answers other than yes are told.
pub fn hear(house: usize, mut output: UnixStream, shared: &Shared, answers: &Sender<String>) -> io::Result<()> {
    let mut buffer = vec![0; BUFFER];
    let mut filled = 0;
    let mut random = Random::new(house as u64);
    loop {
        match output.read(&mut buffer[filled..])? {
            0 => return Ok(()),
            count => filled += count,
        }
        let mut begin = 0;
        let mut told = [false; HOUSES];
        while let Some(length) = buffer[begin..filled].iter().position(|byte| *byte == b'\n') {
            let line = &buffer[begin..begin + length];
            heed(house, line, shared, answers, &mut random, &mut told)?;
            begin += length + 1;
        }
        buffer.copy_within(begin..filled, 0);
        filled -= begin;
        for house in (0..HOUSES).filter(|house| told[*house]) {
            shared.inlet(house).flush()?;
        }
    }
}

fn heed(house: usize, line: &[u8], shared: &Shared, answers: &Sender<String>, random: &mut Random, told: &mut [bool; HOUSES]) -> io::Result<()> {
    match line {
        b"done" => {
            shared.done[house].fetch_add(1, Relaxed);
        }
        [b't', b'o', b' ', to @ b'0'..=b'2', b' ', packet @ ..] => {
            let to = usize::from(*to - b'0');
            shared.inlet(to).carry(house, packet);
            told[to] = true;
        }
        [b'a', b'n', b's', b'w', b'e', b'r', b' ', number @ .., b' ', b'0', b'1'] => {
            let asked = str::from_utf8(number).ok().and_then(|number| number.parse().ok()).ok_or(io::ErrorKind::InvalidData)?;
            shared.took().push(now().saturating_sub(asked));
            if shared.goes_on.load(Relaxed) {
                shared.ask_write(house, random)?;
                told[house] = true;
            } else {
                shared.waiting.fetch_sub(1, Relaxed);
            }
        }
        other => {
            // nobody hears it where the measuring ends
            let _ = answers.send(String::from_utf8_lossy(other).into_owned());
        }
    }
    Ok(())
}
