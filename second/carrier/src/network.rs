//! The houses of a folder, and the packets between them.
use crate::options::Options;
use crate::process::{Event, Running};
use std::fs::{OpenOptions, create_dir_all};
use std::io;
use std::path::PathBuf;
use std::sync::mpsc::SyncSender;

const SECTOR: u64 = 512;

pub struct Network {
    options: Options,
    folder: PathBuf,
    events: SyncSender<Event>,
    houses: Vec<Option<Running>>,
    /// how many processes were started
    starts: u64,
}

impl Network {
    /// Makes the devices that are missing, and starts all houses.
    pub fn new(options: Options, folder: PathBuf, events: SyncSender<Event>) -> io::Result<Network> {
        let houses = (0..options.houses).map(|_| None).collect();
        let mut network = Network { options, folder, events, houses, starts: 0 };
        for house in 0..network.houses() {
            network.make_device(house)?;
            network.start(house)?;
        }
        Ok(network)
    }

    pub fn houses(&self) -> usize {
        self.houses.len()
    }

    pub fn is_up(&self, house: usize) -> bool {
        self.houses[house].is_some()
    }

    fn folder(&self, house: usize) -> PathBuf {
        self.folder.join(format!("house-{house}"))
    }

    /// A blank device, all holes, if the house has none.
    fn make_device(&self, house: usize) -> io::Result<()> {
        let folder = self.folder(house);
        create_dir_all(&folder)?;
        match OpenOptions::new().write(true).create_new(true).open(folder.join("device")) {
            Ok(device) => device.set_len(SECTOR * self.options.sectors),
            Err(error) if error.kind() == io::ErrorKind::AlreadyExists => Ok(()),
            Err(error) => Err(error),
        }
    }

    /// Starts a house, in place of the process that it may have.
    pub fn start(&mut self, house: usize) -> io::Result<()> {
        self.starts += 1;
        let folder = self.folder(house);
        let running = Running::start(&self.options.program, &folder, house, self.houses(), self.starts, &self.events)?;
        self.houses[house] = Some(running);
        Ok(())
    }

    /// Kills a house; says whether it was up.
    pub fn kill(&mut self, house: usize) -> bool {
        self.houses[house].take().is_some()
    }

    /// Whether this start of a house is the one that runs.
    pub fn is_running(&self, house: usize, start: u64) -> bool {
        self.houses[house].as_ref().is_some_and(|running| running.start == start)
    }

    /// How a house that closed its outputs ended, in words.
    pub fn ended(&mut self, house: usize) -> Option<String> {
        self.houses[house].take().map(Running::ended)
    }

    /// Tells a house a line; says whether it was up.
    pub fn tell(&mut self, house: usize, line: String) -> bool {
        self.trace(house, '<', &line);
        let running = self.houses[house].as_mut();
        running.map(|running| running.tell(line)).is_some()
    }

    /// Carries a packet, or loses it where the house is down or too far behind.
    pub fn carry(&mut self, from: usize, to: usize, packet: &str) {
        let line = format!("from {from} {packet}");
        let has_room = self.houses[to].as_ref().is_some_and(Running::has_room);
        if has_room {
            self.tell(to, line);
        } else {
            self.trace(to, 'x', &line);
        }
    }

    /// A house has done a line that it was told.
    pub fn has_done(&mut self, house: usize) {
        if let Some(running) = &mut self.houses[house] {
            running.has_done();
        }
    }

    pub fn tick(&mut self) {
        for running in self.houses.iter_mut().flatten().filter(|running| running.wants_tick()) {
            running.tick();
        }
    }

    /// Shows the front of a line to a house (<), from it (>), or lost before it (x).
    pub fn trace(&self, house: usize, way: char, line: &str) {
        if self.options.trace {
            let front: String = line.chars().take(100).collect();
            eprintln!("{house} {way} {front}{}", if front.len() < line.len() { ".." } else { "" });
        }
    }
}
