//! Processes, and what they use.
use std::fs::read_to_string;
use std::io;
use std::ops::Sub;
use std::process::{Child, Command};

/// Ticks of the clock of /proc/PID/stat per second, on Linux.
const CLOCK: f64 = 100.0;

/// A process that is killed where it is dropped.
pub struct Process(Child);

#[derive(Clone, Copy, Default)]
pub struct Usage {
    /// seconds of a processor, in the program and in the kernel
    user: f64,
    system: f64,
    /// calls of write, to files and to others
    writes: f64,
    bytes: f64,
}

impl Process {
    pub fn spawn(command: &mut Command) -> io::Result<Process> {
        command.spawn().map(Process)
    }

    /// What it used till now.
    pub fn usage(&self) -> io::Result<Usage> {
        let stat = read_to_string(format!("/proc/{}/stat", self.0.id()))?;
        // behind the name, which may have spaces
        let fields: Vec<f64> = stat.rsplit(')').next().unwrap_or("").split(' ').map(|word| word.parse().unwrap_or(0.0)).collect();
        let io = read_to_string(format!("/proc/{}/io", self.0.id()))?;
        let count = |name: &str| io.lines().find_map(|line| line.strip_prefix(name)?.trim().parse().ok()).unwrap_or(0.0);
        let [Some(user), Some(system)] = [12, 13].map(|field| fields.get(field)) else {
            return Err(io::Error::other("/proc/PID/stat has too few fields"));
        };
        Ok(Usage { user: user / CLOCK, system: system / CLOCK, writes: count("syscw:"), bytes: count("wchar:") })
    }
}

impl Drop for Process {
    fn drop(&mut self) {
        // it may be gone already
        let _ = self.0.kill();
        let _ = self.0.wait();
    }
}

impl Sub for Usage {
    type Output = Usage;

    fn sub(self, before: Usage) -> Usage {
        Usage {
            user: self.user - before.user,
            system: self.system - before.system,
            writes: self.writes - before.writes,
            bytes: self.bytes - before.bytes,
        }
    }
}

impl Usage {
    /// For each of so many calls: microseconds in the program and in the kernel, writes, bytes.
    pub fn each(&self, calls: u64) -> [f64; 4] {
        [self.user * 1e6, self.system * 1e6, self.writes, self.bytes].map(|all| all / calls as f64)
    }
}
