//! Puts by gRPC: HTTP/2 on a connection, one request after the other.
use crate::caller::Puts;
use std::io::{self, Read, Write};
use std::net::TcpStream;

const PREFACE: &[u8] = b"PRI * HTTP/2.0\r\n\r\nSM\r\n\r\n";

// Frames.
const DATA: u8 = 0;
const HEADERS: u8 = 1;
const SETTINGS: u8 = 4;
const PING: u8 = 6;
const WINDOW_UPDATE: u8 = 8;

// Flags.
const ACK: u8 = 1;
const END_STREAM: u8 = 1;
const END_HEADERS: u8 = 4;

/// What more the server may send on a connection: all that a window can hold.
const WINDOW: u32 = (1 << 31) - 1 - 65_535;

/// Longer than any frame that comes.
const MOST: usize = 1 << 16;

pub struct Grpc {
    stream: TcpStream,
    /// the number of the next request, odd
    next: u32,
    headers: Vec<u8>,
    /// reused
    request: Vec<u8>,
    buffer: Vec<u8>,
    filled: usize,
}

impl Grpc {
    pub fn connect(port: u16) -> io::Result<Grpc> {
        let mut stream = TcpStream::connect(("127.0.0.1", port))?;
        stream.set_nodelay(true)?;
        let mut first = PREFACE.to_vec();
        frame(&mut first, SETTINGS, 0, 0, &[]);
        frame(&mut first, WINDOW_UPDATE, 0, 0, &WINDOW.to_be_bytes());
        stream.write_all(&first)?;
        let headers = headers("/etcdserverpb.KV/Put");
        Ok(Grpc { stream, next: 1, headers, request: Vec::new(), buffer: vec![0; MOST], filled: 0 })
    }

    /// Reads till the stream ends. A refused request has no data.
    fn read(&mut self, asked: u32) -> io::Result<()> {
        let mut is_done = false;
        loop {
            let mut begin = 0;
            while let Some((kind, flags, stream, payload)) = first_frame(&self.buffer[begin..self.filled]) {
                match kind {
                    DATA if stream == asked => is_done = true,
                    SETTINGS | PING if flags & ACK == 0 => {
                        let mut answer = Vec::new();
                        frame(&mut answer, kind, ACK, 0, if kind == PING { payload } else { &[] });
                        self.stream.write_all(&answer)?;
                    }
                    _ => {}
                }
                begin += 9 + payload.len();
                if kind == HEADERS && stream == asked && flags & END_STREAM > 0 {
                    self.buffer.copy_within(begin..self.filled, 0);
                    self.filled -= begin;
                    return if is_done { Ok(()) } else { Err(io::Error::other("etcd refused a put")) };
                }
            }
            self.buffer.copy_within(begin..self.filled, 0);
            self.filled -= begin;
            match self.stream.read(&mut self.buffer[self.filled..])? {
                0 => return Err(io::ErrorKind::UnexpectedEof.into()),
                count => self.filled += count,
            }
        }
    }
}

impl Puts for Grpc {
    fn put(&mut self, key: &[u8], value: &[u8]) -> io::Result<()> {
        let asked = self.next;
        self.next += 2;
        let mut message = Vec::with_capacity(value.len() + 32);
        field(&mut message, 1, key);
        field(&mut message, 2, value);
        let mut data = vec![0];
        data.extend_from_slice(&(message.len() as u32).to_be_bytes());
        data.extend_from_slice(&message);
        self.request.clear();
        frame(&mut self.request, HEADERS, END_HEADERS, asked, &self.headers);
        frame(&mut self.request, DATA, END_STREAM, asked, &data);
        self.stream.write_all(&self.request)?;
        self.read(asked)
    }
}

fn frame(out: &mut Vec<u8>, kind: u8, flags: u8, stream: u32, payload: &[u8]) {
    out.extend_from_slice(&(payload.len() as u32).to_be_bytes()[1..]);
    out.extend_from_slice(&[kind, flags]);
    out.extend_from_slice(&stream.to_be_bytes());
    out.extend_from_slice(payload);
}

/// The kind, flags, stream and payload of the frame at the front, if all of it is there.
fn first_frame(bytes: &[u8]) -> Option<(u8, u8, u32, &[u8])> {
    let [a, b, c, kind, flags, s, t, u, v] = *bytes.first_chunk()?;
    let length = u32::from_be_bytes([0, a, b, c]) as usize;
    Some((kind, flags, u32::from_be_bytes([s, t, u, v]), bytes.get(9..9 + length)?))
}

/// A field of bytes of a protobuf message.
fn field(out: &mut Vec<u8>, number: u8, bytes: &[u8]) {
    out.push(number << 3 | 2);
    let mut length = bytes.len();
    while length >= 128 {
        out.push(length as u8 | 128);
        length >>= 7;
    }
    out.push(length as u8);
    out.extend_from_slice(bytes);
}

/// The header block of a call, all of it literal or in the static table, each string below 127 bytes.
fn headers(path: &str) -> Vec<u8> {
    // POST, http; then the values of :path, :authority, content-type, each not to be indexed
    let mut out = vec![0x83, 0x86];
    for (name, value) in [(&[4][..], path), (&[1], "127.0.0.1"), (&[15, 16], "application/grpc")] {
        out.extend_from_slice(name);
        string(&mut out, value);
    }
    out.push(0);
    string(&mut out, "te");
    string(&mut out, "trailers");
    out
}

fn string(out: &mut Vec<u8>, text: &str) {
    out.push(text.len() as u8);
    out.extend_from_slice(text.as_bytes());
}

#[cfg(test)]
mod tests {
    use super::*;

    #[test]
    fn a_frame_is_found_again() {
        let mut out = Vec::new();
        frame(&mut out, DATA, END_STREAM, 5, b"abc");
        assert_eq!(first_frame(&out), Some((DATA, END_STREAM, 5, &b"abc"[..])));
        assert_eq!(first_frame(&out[..11]), None);
    }

    #[test]
    fn a_long_field() {
        let mut out = Vec::new();
        field(&mut out, 2, &[7; 512]);
        assert_eq!(out[..4], [18, 128, 4, 7]);
    }
}
