//! Callers of etcd, a thread and a connection for each.
use crate::houses::WARM_UP;
use crate::{SECTOR, SECTORS};
use random::Random;
use std::io;
use std::sync::atomic::{AtomicBool, AtomicU64, Ordering::Relaxed};
use std::thread::{scope, sleep};
use std::time::{Duration, Instant};

/// A connection.
pub trait Puts: Send {
    /// Puts a value at a key, and waits for the answer.
    fn put(&mut self, key: &[u8], value: &[u8]) -> io::Result<()>;
}

/// Puts answered per second, where so many wait.
pub fn rate<P: Puts>(waiting: usize, time: Duration, connect: impl Fn() -> io::Result<P>) -> io::Result<f64> {
    let (goes_on, answered) = (AtomicBool::new(true), AtomicU64::new(0));
    let connections = (0..waiting).map(|_| connect()).collect::<io::Result<Vec<P>>>()?;
    scope(|scope| {
        let calls = |(seed, connection)| call(connection, seed as u64, &goes_on, &answered);
        let callers: Vec<_> = connections.into_iter().enumerate().map(|each| scope.spawn(move || calls(each))).collect();
        sleep(WARM_UP);
        let (begin, first) = (Instant::now(), answered.load(Relaxed));
        sleep(time);
        let rate = (answered.load(Relaxed) - first) as f64 / begin.elapsed().as_secs_f64();
        goes_on.store(false, Relaxed);
        for caller in callers {
            caller.join().unwrap_or_else(|_| Err(io::Error::other("a caller panicked")))?;
        }
        Ok(rate)
    })
}

fn call(mut connection: impl Puts, seed: u64, goes_on: &AtomicBool, answered: &AtomicU64) -> io::Result<()> {
    let mut random = Random::new(seed);
    while goes_on.load(Relaxed) {
        let key = (random.below(SECTORS) as u64).to_be_bytes();
        connection.put(&key, &[random.next() as u8; SECTOR])?;
        answered.fetch_add(1, Relaxed);
    }
    Ok(())
}
