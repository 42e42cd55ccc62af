//! The lines that a house prints.
use crate::words::unhex;

#[derive(Debug, PartialEq, Eq)]
pub enum Line<'a> {
    /// the packet, still in digits, is to go to this house
    To(usize, &'a str),
    Answer(u64, Vec<u8>),
    Refused,
    Done,
}

/// What a line says, among so many houses.
pub fn parse(line: &str, houses: usize) -> Option<Line<'_>> {
    let words: Vec<&str> = line.splitn(3, ' ').collect();
    match words[..] {
        ["to", house, packet] => Some(Line::To(house.parse().ok().filter(|house| *house < houses)?, packet)),
        ["answer", number, bytes] => Some(Line::Answer(number.parse().ok()?, unhex(bytes)?)),
        ["refused", "1"] => Some(Line::Refused),
        ["done"] => Some(Line::Done),
        _ => None,
    }
}

#[cfg(test)]
mod tests {
    use super::*;

    #[test]
    fn each_line() {
        assert_eq!(parse("to 2 00ff", 3), Some(Line::To(2, "00ff")));
        assert_eq!(parse("to 2 ", 3), Some(Line::To(2, "")));
        assert_eq!(parse("answer 7 000c", 3), Some(Line::Answer(7, vec![0, 12])));
        assert_eq!(parse("refused 1", 3), Some(Line::Refused));
        assert_eq!(parse("done", 3), Some(Line::Done));
    }

    #[test]
    fn no_line() {
        for line in ["", "to 3 00", "to 2", "answer 7 0", "answer x 00", "refused 2", "done ", "Done"] {
            assert_eq!(parse(line, 3), None, "{line:?}");
        }
    }
}
