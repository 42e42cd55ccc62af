//! A house as a process, with a thread for each of its three pipes, so that no house can hold up the others.
use std::io::{self, BufRead, BufReader, Read, Write};
use std::path::Path;
use std::process::{Child, ChildStdin, Command, Stdio};
use std::sync::mpsc::{Receiver, Sender, SyncSender, channel};
use std::thread::{sleep, spawn};
use std::time::{Duration, Instant};

/// So many lines a house may owe a `done` before packets to it are lost: a bound on what waits to be written.
const MOST_OWED: u64 = 256;

/// How long a process that closed its pipes has to exit.
const LAST: Duration = Duration::from_secs(1);

/// So many events may wait to be heard; then a house waits until it can print more.
pub const MOST_EVENTS: usize = 64;

/// What the threads tell.
pub enum Event {
    /// the next line of the script, or its end
    Script(Option<String>),
    /// of the house that was started as this one of all starts
    House { house: usize, start: u64, news: News },
}

pub enum News {
    Printed(String),
    /// on standard error
    Complained(String),
    /// both outputs are at their end
    Closed,
}

/// A house that runs. Dropped, it is killed.
pub struct Running {
    child: Child,
    lines: Sender<String>,
    /// which of all starts this was
    pub start: u64,
    told: u64,
    done: u64,
    /// how many lines it had been told with the last tick
    ticked: u64,
}

impl Running {
    /// Starts a house in its folder.
    pub fn start(program: &Path, folder: &Path, house: usize, houses: usize, start: u64, events: &SyncSender<Event>) -> io::Result<Running> {
        let mut child = Command::new(program)
            .args([house, houses].map(|number| number.to_string()))
            .current_dir(folder)
            .stdin(Stdio::piped())
            .stdout(Stdio::piped())
            .stderr(Stdio::piped())
            .spawn()?;
        let tell = {
            let events = events.clone();
            move |news| {
                // nobody hears it where the link ends
                let _ = events.send(Event::House { house, start, news });
            }
        };
        let (lines, told) = channel();
        let input = child.stdin.take().expect("it is piped");
        let output = child.stdout.take().expect("it is piped");
        let errors = child.stderr.take().expect("it is piped");
        spawn(move || write_lines(input, told));
        let complain = tell.clone();
        let complaints = spawn(move || read_lines(errors, |line| complain(News::Complained(line))));
        spawn(move || {
            read_lines(output, |line| tell(News::Printed(line)));
            let _ = complaints.join();
            tell(News::Closed);
        });
        Ok(Running { child, lines, start, told: 0, done: 0, ticked: 0 })
    }

    pub fn tell(&mut self, line: String) {
        self.told += 1;
        // where the thread is gone, so is the process, and its end is told by the others
        let _ = self.lines.send(line);
    }

    /// Whether it is to get packets.
    pub fn has_room(&self) -> bool {
        self.told - self.done < MOST_OWED
    }

    /// Whether it has done all that it was told up to the last tick: only then it gets another.
    pub fn wants_tick(&self) -> bool {
        self.done >= self.ticked
    }

    pub fn tick(&mut self) {
        self.tell("tick".to_string());
        self.ticked = self.told;
    }

    /// It printed `done`.
    pub fn has_done(&mut self) {
        self.done = self.told.min(self.done + 1);
    }

    /// How a process that closed its outputs ended, in words.
    pub fn ended(mut self) -> String {
        let end = Instant::now() + LAST;
        loop {
            match self.child.try_wait() {
                Ok(Some(status)) => return format!("exited by itself, {status}"),
                Ok(None) if Instant::now() < end => sleep(Duration::from_millis(1)),
                Ok(None) => return "closed its outputs, but did not exit, and was killed".to_string(),
                Err(error) => return format!("is gone, {error}"),
            }
        }
    }
}

impl Drop for Running {
    fn drop(&mut self) {
        // it may be gone already
        let _ = self.child.kill();
        let _ = self.child.wait();
    }
}

fn write_lines(mut input: ChildStdin, lines: Receiver<String>) {
    for mut line in lines {
        line.push('\n');
        if input.write_all(line.as_bytes()).is_err() {
            return;
        }
    }
}

fn read_lines(output: impl Read, mut tell: impl FnMut(String)) {
    for line in BufReader::new(output).split(b'\n').map_while(Result::ok) {
        tell(String::from_utf8_lossy(&line).into_owned());
    }
}
