//! Calls, answers and frames as bytes, high byte first: a second implementation, to compare the proved one with.
//! It is written from the formats alone, table by table, and shares nothing with the first.

pub const SECTOR: usize = 512;

/// The kinds that are built; a call of any other known kind is refused by 12.
pub const BUILT: [u8; 6] = [1, 2, 3, 4, 5, 8];

/// Refusals that have a meaning.
pub const REFUSALS: [u8; 6] = [1, 2, 4, 8, 11, 12];

pub const MALFORMED: u8 = 1;
pub const NOT_BUILT: u8 = 12;

/// A call by its kind, its numbers in order, and the sector of a write.
#[derive(Clone, Debug, PartialEq, Eq)]
pub struct Call {
    pub kind: u8,
    pub numbers: Vec<u64>,
    pub content: Vec<u8>,
}

/// How many numbers a kind has, and how many bytes follow them.
pub fn shape(kind: u8) -> Option<(usize, usize)> {
    Some(match kind {
        1 | 2 | 7 | 9 => (1, 0),
        5 | 6 | 8 => (2, 0),
        3 => (3, 0),
        4 => (3, SECTOR),
        _ => return None,
    })
}

fn numbers(bytes: &[u8]) -> Vec<u64> {
    bytes
        .chunks_exact(8)
        .map(|chunk| chunk.iter().fold(0, |n, byte| n << 8 | u64::from(*byte)))
        .collect()
}

impl Call {
    pub fn decode(bytes: &[u8]) -> Result<Call, u8> {
        let (&kind, rest) = bytes.split_first().ok_or(MALFORMED)?;
        let (count, content) = shape(kind).ok_or(MALFORMED)?;
        if !BUILT.contains(&kind) {
            return Err(NOT_BUILT);
        }
        if rest.len() != 8 * count + content {
            return Err(MALFORMED);
        }
        let (front, back) = rest.split_at(8 * count);
        Ok(Call { kind, numbers: numbers(front), content: back.to_vec() })
    }

    pub fn encode(&self) -> Vec<u8> {
        let mut out = vec![self.kind];
        for n in &self.numbers {
            out.extend(n.to_be_bytes());
        }
        out.extend(&self.content);
        out
    }
}

#[derive(Clone, Debug, PartialEq, Eq)]
pub enum Answer {
    Refused(u8),
    Yes,
    Number(u64),
    Token { token: u64, size: u64 },
    Sector(Vec<u8>),
    Full,
}

impl Answer {
    pub fn decode(bytes: &[u8]) -> Option<Answer> {
        let (case, rest) = bytes.split_first()?;
        match (case, rest.len()) {
            (0, 1) if REFUSALS.contains(&rest[0]) => Some(Answer::Refused(rest[0])),
            (1, 0) => Some(Answer::Yes),
            (2, 8) => Some(Answer::Number(numbers(rest)[0])),
            (3, 16) => {
                let values = numbers(rest);
                Some(Answer::Token { token: values[0], size: values[1] })
            }
            (4, SECTOR) => Some(Answer::Sector(rest.to_vec())),
            (5, 0) => Some(Answer::Full),
            _ => None,
        }
    }

    pub fn encode(&self) -> Vec<u8> {
        match self {
            Answer::Refused(number) => vec![0, *number],
            Answer::Yes => vec![1],
            Answer::Number(n) => [&[2][..], &n.to_be_bytes()].concat(),
            Answer::Token { token, size } => [&[3][..], &token.to_be_bytes(), &size.to_be_bytes()].concat(),
            Answer::Sector(content) => [&[4], content.as_slice()].concat(),
            Answer::Full => vec![5],
        }
    }
}

/// What bytes begin with on a line.
#[derive(Clone, Debug, PartialEq, Eq)]
pub enum Framed<'a> {
    Whole { customer: u64, body: &'a [u8], after: &'a [u8] },
    Short,
    Broken,
}

pub fn decode_frame(bytes: &[u8]) -> Framed<'_> {
    let Some(head) = bytes.get(..4) else {
        return Framed::Short;
    };
    let length = u32::from_be_bytes([head[0], head[1], head[2], head[3]]) as usize;
    let Some(frame) = bytes.get(4..4 + length) else {
        return Framed::Short;
    };
    if length < 8 {
        return Framed::Broken;
    }
    Framed::Whole { customer: numbers(&frame[..8])[0], body: &frame[8..], after: &bytes[4 + length..] }
}

pub fn encode_frame(customer: u64, body: &[u8]) -> Vec<u8> {
    let length = u32::try_from(8 + body.len()).expect("a frame's length has 4 bytes");
    [&length.to_be_bytes()[..], &customer.to_be_bytes(), body].concat()
}

#[cfg(test)]
mod tests {
    use super::*;

    #[test]
    fn a_call_of_each_kind_has_its_length() {
        for (kind, length) in [(1, 9), (2, 9), (3, 25), (4, 537), (5, 17), (6, 17), (7, 9), (8, 17), (9, 9)] {
            let (count, content) = shape(kind).unwrap();
            assert_eq!(1 + 8 * count + content, length, "kind {kind}");
        }
    }

    #[test]
    fn high_byte_first() {
        let call = Call::decode(&[3, 0, 0, 0, 0, 0, 0, 0, 1, 0, 0, 0, 0, 0, 0, 0, 2, 1, 2, 3, 4, 5, 6, 7, 8]).unwrap();
        assert_eq!(call.numbers, [1, 2, 0x0102030405060708]);
    }

    #[test]
    fn twelve_before_one() {
        assert_eq!(Call::decode(&[6]), Err(12));
        assert_eq!(Call::decode(&[5]), Err(1));
        assert_eq!(Call::decode(&[]), Err(1));
        assert_eq!(Call::decode(&[10]), Err(1));
    }
}
