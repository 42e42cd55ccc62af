//! What a house is told.
use std::io::{self, ErrorKind, Write};
use std::iter::Sum;
use std::ops::{Add, Sub};
use std::os::unix::net::UnixStream;

/// So many bytes may wait to be written; then packets are lost.
const MOST_PENDING: usize = 1 << 22;

/// A house's input. Nobody waits for a house that doesn't read: the rest is written with what comes next, at the latest a tick.
pub struct Inlet {
    stream: UnixStream,
    pending: Vec<u8>,
    written: usize,
    /// how many lines
    pub told: u64,
    pub carried: Carried,
}

/// How many packets, how many bytes they had, and how many packets were lost.
#[derive(Clone, Copy, Default)]
pub struct Carried {
    pub packets: u64,
    pub bytes: u64,
    pub lost: u64,
}

impl Inlet {
    pub fn new(stream: UnixStream) -> io::Result<Inlet> {
        stream.set_nonblocking(true)?;
        Ok(Inlet { stream, pending: Vec::new(), written: 0, told: 0, carried: Carried::default() })
    }

    /// The next line, to be written by `flush`; it must have its end.
    pub fn tell(&mut self) -> &mut Vec<u8> {
        self.told += 1;
        &mut self.pending
    }

    /// A packet, in digits.
    pub fn carry(&mut self, from: usize, packet: &[u8]) {
        if self.pending.len() - self.written > MOST_PENDING {
            self.carried.lost += 1;
            return;
        }
        self.carried.packets += 1;
        self.carried.bytes += packet.len() as u64 / 2;
        let line = self.tell();
        line.extend_from_slice(&[b'f', b'r', b'o', b'm', b' ', b'0' + from as u8, b' ']);
        line.extend_from_slice(packet);
        line.push(b'\n');
    }

    pub fn flush(&mut self) -> io::Result<()> {
        while self.written < self.pending.len() {
            match self.stream.write(&self.pending[self.written..]) {
                Ok(count) => self.written += count,
                Err(error) if error.kind() == ErrorKind::WouldBlock => return Ok(()),
                Err(error) if error.kind() == ErrorKind::Interrupted => {}
                Err(error) => return Err(error),
            }
        }
        self.pending.clear();
        self.written = 0;
        Ok(())
    }
}

impl Add for Carried {
    type Output = Carried;

    fn add(self, other: Carried) -> Carried {
        Carried { packets: self.packets + other.packets, bytes: self.bytes + other.bytes, lost: self.lost + other.lost }
    }
}

impl Sub for Carried {
    type Output = Carried;

    fn sub(self, other: Carried) -> Carried {
        Carried { packets: self.packets - other.packets, bytes: self.bytes - other.bytes, lost: self.lost - other.lost }
    }
}

impl Sum for Carried {
    fn sum<I: Iterator<Item = Carried>>(all: I) -> Carried {
        all.fold(Carried::default(), Add::add)
    }
}

#[cfg(test)]
mod tests {
    use super::*;
    use std::io::Read;

    #[test]
    fn a_packet_is_a_line_and_nobody_waits() {
        let (stream, mut house) = UnixStream::pair().unwrap();
        let mut inlet = Inlet::new(stream).unwrap();
        inlet.carry(2, b"00ff");
        inlet.flush().unwrap();
        let mut line = [0; 12];
        house.read_exact(&mut line).unwrap();
        assert_eq!(&line, b"from 2 00ff\n");
        let packet = vec![b'0'; 1 << 20];
        for _ in 0..8 {
            inlet.carry(1, &packet);
            inlet.flush().unwrap();
        }
        assert!(inlet.carried.lost > 0);
        assert_eq!(inlet.carried.packets + inlet.carried.lost, 9);
    }
}
