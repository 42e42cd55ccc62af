//! Three houses as processes, on devices of their own.
use crate::bare::zeros;
use crate::carrier::{Shared, hear};
use crate::inlet::{Carried, Inlet};
use crate::process::{Process, Usage};
use crate::{HOUSES, SECTORS};
use std::fs::create_dir;
use std::io;
use std::mem::take;
use std::os::fd::OwnedFd;
use std::os::unix::net::UnixStream;
use std::path::Path;
use std::process::Command;
use std::sync::Arc;
use std::sync::atomic::Ordering::Relaxed;
use std::sync::mpsc::{Receiver, channel};
use std::thread::{sleep, spawn};
use std::time::{Duration, Instant};

const DEVICE: usize = 65_536;

const TICK: Duration = Duration::from_millis(20);

/// How long a call may wait.
const LIMIT: Duration = Duration::from_secs(30);

pub const WARM_UP: Duration = Duration::from_secs(2);

pub struct Houses {
    shared: Arc<Shared>,
    answers: Receiver<String>,
    processes: Vec<Process>,
}

pub struct Measured {
    /// calls per second
    pub rate: f64,
    pub calls: u64,
    /// how long half of the calls took at most, in microseconds
    pub median: f64,
    /// of each house
    pub usage: Vec<Usage>,
    pub carried: Carried,
}

impl Houses {
    /// Starts them on blank devices, and makes and attaches a volume.
    pub fn start(program: &Path, folder: &Path) -> io::Result<Houses> {
        let mut processes = Vec::new();
        let mut outputs = Vec::new();
        let mut inlets = Vec::new();
        for house in 0..HOUSES {
            let folder = folder.join(format!("house-{house}"));
            create_dir(&folder)?;
            zeros(&folder.join("device"), DEVICE)?;
            let (inlet, input) = UnixStream::pair()?;
            let (outlet, output) = UnixStream::pair()?;
            let words = [house, HOUSES, DEVICE].map(|number| number.to_string());
            let mut command = Command::new(program);
            command.args(words).current_dir(folder).stdin(OwnedFd::from(input)).stdout(OwnedFd::from(output));
            processes.push(Process::spawn(&mut command)?);
            inlets.push(Inlet::new(inlet)?);
            outputs.push(outlet);
        }
        let Ok(inlets) = <[Inlet; HOUSES]>::try_from(inlets) else { unreachable!("there is one for each house") };
        let shared = Arc::new(Shared::new(inlets));
        let (tell, answers) = channel();
        for (house, output) in outputs.into_iter().enumerate() {
            let (shared, tell) = (shared.clone(), tell.clone());
            spawn(move || {
                if let Err(error) = hear(house, output, &shared, &tell) {
                    let _ = tell.send(format!("house {house}: {error}"));
                }
            });
        }
        spawn({
            let shared = shared.clone();
            move || ticks(&shared)
        });
        let houses = Houses { shared, answers, processes };
        houses.make_volume()?;
        Ok(houses)
    }

    /// The digits of the answer to a call.
    fn asked(&self, call: &str) -> io::Result<String> {
        self.shared.ask(0, call)?;
        let line = self.answers.recv_timeout(LIMIT).map_err(io::Error::other)?;
        let digits = line.strip_prefix("answer ").and_then(|rest| Some(rest.split_once(' ')?.1));
        digits.map(String::from).ok_or_else(|| io::Error::other(line.clone()))
    }

    fn make_volume(&self) -> io::Result<()> {
        let made = self.asked(&format!("01{SECTORS:016x}"))?;
        let volume = number(&made, "02")?;
        let attached = self.asked(&format!("02{volume:016x}"))?;
        self.shared.volume.store(volume, Relaxed);
        self.shared.token.store(number(&attached, "03")?, Relaxed);
        Ok(())
    }

    fn usage(&self) -> io::Result<Vec<Usage>> {
        self.processes.iter().map(Process::usage).collect()
    }

    /// Calls answered with so many waiting, spread over the houses.
    pub fn measure(&self, waiting: usize, time: Duration) -> io::Result<Measured> {
        let shared = &self.shared;
        shared.goes_on.store(true, Relaxed);
        for house in 0..HOUSES {
            shared.ask_writes(house, (waiting + HOUSES - 1 - house) / HOUSES)?;
        }
        sleep(WARM_UP);
        shared.took().clear();
        let (begin, carried, before) = (Instant::now(), shared.carried(), self.usage()?);
        sleep(time);
        let mut took = take(&mut *shared.took());
        let seconds = begin.elapsed().as_secs_f64();
        let (carried, after) = (shared.carried() - carried, self.usage()?);
        shared.goes_on.store(false, Relaxed);
        self.settle()?;
        took.sort_unstable();
        let Some(median) = took.get(took.len() / 2) else {
            return Err(io::Error::other("no call was answered"));
        };
        let usage = after.into_iter().zip(before).map(|(after, before)| after - before).collect();
        Ok(Measured { rate: took.len() as f64 / seconds, calls: took.len() as u64, median: *median as f64 / 1000.0, usage, carried })
    }

    /// Waits until no call waits. None may have been answered by anything but yes.
    fn settle(&self) -> io::Result<()> {
        let end = Instant::now() + LIMIT;
        while self.shared.waiting.load(Relaxed) > 0 && Instant::now() < end {
            if let Ok(line) = self.answers.try_recv() {
                return Err(io::Error::other(line));
            }
            sleep(TICK);
        }
        match self.shared.waiting.load(Relaxed) {
            0 => Ok(()),
            waiting => Err(io::Error::other(format!("{waiting} calls were not answered"))),
        }
    }
}

/// Till a house is gone.
fn ticks(shared: &Shared) {
    let mut ticked = [0; HOUSES];
    while ticked.iter_mut().enumerate().all(|(house, ticked)| shared.tick(house, ticked).is_ok()) {
        sleep(TICK);
    }
}

/// The number behind the case of an answer.
fn number(digits: &str, case: &str) -> io::Result<u64> {
    let number = digits.strip_prefix(case).and_then(|rest| u64::from_str_radix(rest.get(..16)?, 16).ok());
    number.ok_or_else(|| io::Error::other(format!("answer {digits}")))
}
