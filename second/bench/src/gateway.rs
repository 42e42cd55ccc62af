//! Puts by etcd's gateway: JSON over HTTP/1.1, on a connection that is kept.
use crate::caller::Puts;
use std::io::{self, Read, Write};
use std::net::TcpStream;

const DIGITS: &[u8; 64] = b"ABCDEFGHIJKLMNOPQRSTUVWXYZabcdefghijklmnopqrstuvwxyz0123456789+/";

/// Longer than any answer.
const MOST: usize = 1 << 14;

pub struct Gateway {
    stream: TcpStream,
    /// reused
    request: Vec<u8>,
    body: Vec<u8>,
    answer: Vec<u8>,
}

impl Gateway {
    pub fn connect(port: u16) -> io::Result<Gateway> {
        let stream = TcpStream::connect(("127.0.0.1", port))?;
        stream.set_nodelay(true)?;
        Ok(Gateway { stream, request: Vec::new(), body: Vec::new(), answer: vec![0; MOST] })
    }

    /// The answer's body.
    pub fn post(&mut self, path: &str, body: &[u8]) -> io::Result<&[u8]> {
        self.request.clear();
        write!(self.request, "POST {path} HTTP/1.1\r\nHost: 127.0.0.1\r\nContent-Length: {}\r\n\r\n", body.len())?;
        self.request.extend_from_slice(body);
        self.stream.write_all(&self.request)?;
        self.read()
    }

    fn read(&mut self) -> io::Result<&[u8]> {
        let mut filled = 0;
        loop {
            let count = match self.answer.get_mut(filled..) {
                Some(rest) if !rest.is_empty() => self.stream.read(rest)?,
                _ => return Err(io::Error::other("an answer of the gateway is too long")),
            };
            if count == 0 {
                return Err(io::ErrorKind::UnexpectedEof.into());
            }
            filled += count;
            if let Some((begin, length)) = head(&self.answer[..filled])?
                && filled >= begin + length
            {
                return Ok(&self.answer[begin..begin + length]);
            }
        }
    }
}

impl Puts for Gateway {
    fn put(&mut self, key: &[u8], value: &[u8]) -> io::Result<()> {
        let mut body = std::mem::take(&mut self.body);
        body.clear();
        body.extend_from_slice(b"{\"key\":\"");
        encode(key, &mut body);
        body.extend_from_slice(b"\",\"value\":\"");
        encode(value, &mut body);
        body.extend_from_slice(b"\"}");
        let done = self.post("/v3/kv/put", &body).map(|_| ());
        self.body = body;
        done
    }
}

/// Where the body begins and how long it is, if all of the head is there. Only 200 will do.
fn head(answer: &[u8]) -> io::Result<Option<(usize, usize)>> {
    let Some(length) = answer.windows(4).position(|four| four == b"\r\n\r\n") else {
        return Ok(None);
    };
    let head = String::from_utf8_lossy(&answer[..length]);
    let mut lines = head.lines();
    if !lines.next().is_some_and(|line| line.starts_with("HTTP/1.1 200 ")) {
        return Err(io::Error::other(String::from_utf8_lossy(answer).into_owned()));
    }
    let body = lines.find_map(|line| line.split_once(": ").filter(|(name, _)| name.eq_ignore_ascii_case("content-length"))?.1.parse().ok());
    match body {
        Some(body) => Ok(Some((length + 4, body))),
        None => Err(io::Error::other("an answer of the gateway doesn't tell its length")),
    }
}

/// Base64.
pub fn encode(bytes: &[u8], out: &mut Vec<u8>) {
    for three in bytes.chunks(3) {
        let number = (0..3).fold(0, |number, at| number << 8 | usize::from(three.get(at).copied().unwrap_or(0)));
        for at in 0..4 {
            out.push(if at <= three.len() { DIGITS[number >> (18 - 6 * at) & 63] } else { b'=' });
        }
    }
}

#[cfg(test)]
mod tests {
    use super::*;

    #[test]
    fn digits() {
        for (bytes, digits) in [("", ""), ("f", "Zg=="), ("fo", "Zm8="), ("foo", "Zm9v"), ("foobar", "Zm9vYmFy")] {
            let mut out = Vec::new();
            encode(bytes.as_bytes(), &mut out);
            assert_eq!(out, digits.as_bytes());
        }
    }

    #[test]
    fn heads() {
        assert_eq!(head(b"HTTP/1.1 200 OK\r\nContent-Length: 2\r\n\r\n{}").unwrap(), Some((38, 2)));
        assert_eq!(head(b"HTTP/1.1 200 OK\r\nContent-").unwrap(), None);
        assert!(head(b"HTTP/1.1 500 No\r\nContent-Length: 0\r\n\r\n").is_err());
    }
}
