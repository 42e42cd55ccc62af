//! The command line.
use std::path::PathBuf;
use std::time::Duration;

pub const USAGE: &str = "usage: link HOUSE [--houses N] [--folder FOLDER] [--sectors SECTORS] [--tick MS] [--trace]
HOUSE is the program that each house runs. The script comes on standard input. Without --folder the devices lie in a temporary folder.";

pub struct Options {
    /// the program of a house
    pub program: PathBuf,
    pub houses: usize,
    /// where the houses' folders lie: a temporary one if not told
    pub folder: Option<PathBuf>,
    /// how many sectors a new device has
    pub sectors: u64,
    pub tick: Duration,
    /// whether each line to and from a house is shown
    pub trace: bool,
}

/// The options that the words after the program's name tell.
pub fn parse(words: impl IntoIterator<Item = String>) -> Option<Options> {
    let mut words = words.into_iter();
    let program = words.next().filter(|word| !word.starts_with('-'))?.into();
    let mut options = Options { program, houses: 3, folder: None, sectors: 65_536, tick: Duration::from_millis(20), trace: false };
    while let Some(word) = words.next() {
        match word.as_str() {
            "--houses" => options.houses = words.next()?.parse().ok().filter(|houses| (3..=49).contains(houses))?,
            "--folder" => options.folder = Some(words.next()?.into()),
            "--sectors" => options.sectors = words.next()?.parse().ok().filter(|sectors| *sectors <= 1 << 40)?,
            "--tick" => options.tick = words.next()?.parse().ok().filter(|ms| *ms > 0).map(Duration::from_millis)?,
            "--trace" => options.trace = true,
            _ => return None,
        }
    }
    Some(options)
}

#[cfg(test)]
mod tests {
    use super::*;

    fn parsed(line: &str) -> Option<Options> {
        parse(line.split_whitespace().map(String::from))
    }

    #[test]
    fn what_is_told_and_what_not() {
        let options = parsed("out/house --houses 5 --folder d --sectors 70000 --tick 5 --trace").unwrap();
        assert_eq!((options.houses, options.sectors, options.tick, options.trace), (5, 70_000, Duration::from_millis(5), true));
        assert_eq!((options.program, options.folder), ("out/house".into(), Some("d".into())));
        let plain = parsed("house").unwrap();
        assert_eq!((plain.houses, plain.folder, plain.sectors, plain.trace), (3, None, 65_536, false));
    }

    #[test]
    fn what_is_no_command_line() {
        for line in ["", "--trace", "house --houses 2", "house --houses 50", "house --tick 0", "house --folder", "house more"] {
            assert!(parsed(line).is_none(), "{line}");
        }
    }
}
