//! Bytes and answers as people read them: the words of `rehearse`.
use second_wire::Answer;
use std::fmt;
use std::time::Duration;

pub struct Hex<'a>(pub &'a [u8]);

impl fmt::Display for Hex<'_> {
    fn fmt(&self, f: &mut fmt::Formatter<'_>) -> fmt::Result {
        self.0.iter().try_for_each(|byte| write!(f, "{byte:02x}"))
    }
}

/// The bytes of pairs of hexadecimal digits.
pub fn unhex(digits: &str) -> Option<Vec<u8>> {
    let digit = |digit: u8| char::from(digit).to_digit(16);
    digits
        .as_bytes()
        .chunks(2)
        .map(|pair| match pair {
            [high, low] => u8::try_from(16 * digit(*high)? + digit(*low)?).ok(),
            _ => None,
        })
        .collect()
}

pub struct InWords<'a>(pub &'a Answer);

impl fmt::Display for InWords<'_> {
    fn fmt(&self, f: &mut fmt::Formatter<'_>) -> fmt::Result {
        match self.0 {
            Answer::Refused(number) => write!(f, "refused {number}"),
            Answer::Yes => f.write_str("yes"),
            Answer::Number(number) => write!(f, "number {number}"),
            Answer::Token { token, size } => write!(f, "token {token} size {size}"),
            Answer::Sector(content) if content.iter().all(|byte| *byte == content[0]) => write!(f, "sector {:02x}", content[0]),
            Answer::Sector(content) => write!(f, "sector {}", Hex(content)),
            Answer::Full => f.write_str("full"),
        }
    }
}

pub struct Milliseconds(pub Duration);

impl fmt::Display for Milliseconds {
    fn fmt(&self, f: &mut fmt::Formatter<'_>) -> fmt::Result {
        write!(f, "{:.1} ms", 1000.0 * self.0.as_secs_f64())
    }
}

#[cfg(test)]
mod tests {
    use super::*;

    #[test]
    fn digits_in_pairs() {
        assert_eq!(unhex("00aBff"), Some(vec![0, 0xab, 0xff]));
        assert_eq!(unhex(""), Some(vec![]));
        assert_eq!(unhex("0"), None);
        assert_eq!(unhex("0g"), None);
        assert_eq!(unhex("é0"), None);
        assert_eq!(Hex(&[0, 0xab]).to_string(), "00ab");
    }

    #[test]
    fn a_sector_of_one_byte_is_short() {
        assert_eq!(InWords(&Answer::Sector(vec![7; 512])).to_string(), "sector 07");
        let mixed = [vec![7; 511], vec![8]].concat();
        assert_eq!(InWords(&Answer::Sector(mixed)).to_string().len(), 7 + 1024);
    }
}
