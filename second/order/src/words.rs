//! Calls and answers in words, as scripts have them and rehearsals print them.
use second_wire::{Answer, Call, REFUSALS, SECTOR};
use std::fmt::Write;

/// Each kind by its word, with how many numbers follow it.
const KINDS: [(&str, u8, usize); 9] = [
    ("make", 1, 1),
    ("attach", 2, 1),
    ("read", 3, 3),
    ("write", 4, 3),
    ("sync", 5, 2),
    ("picture", 6, 2),
    ("copy", 7, 1),
    ("drop", 8, 2),
    ("drop-picture", 9, 1),
];

pub fn number(word: &str) -> Option<u64> {
    if word.bytes().all(|b| b.is_ascii_digit()) { word.parse().ok() } else { None }
}

pub fn numbers(words: &[&str]) -> Option<Vec<u64>> {
    words.iter().map(|word| number(word)).collect()
}

/// A sector by its one byte, or by all of them.
fn sector(word: &str) -> Option<Vec<u8>> {
    let digits: Vec<u8> = word.chars().map(|c| c.to_digit(16).map(|d| d as u8)).collect::<Option<_>>()?;
    match digits.len() {
        2 => Some(vec![digits[0] << 4 | digits[1]; SECTOR]),
        n if n == 2 * SECTOR => Some(digits.chunks(2).map(|two| two[0] << 4 | two[1]).collect()),
        _ => None,
    }
}

fn sector_in_words(content: &[u8]) -> String {
    let same = content.iter().all(|b| *b == content[0]);
    let bytes = if same { &content[..1] } else { content };
    bytes.iter().fold(String::new(), |mut words, b| {
        write!(words, "{b:02x}").expect("a string takes all");
        words
    })
}

pub fn call(words: &[&str]) -> Option<Call> {
    let (word, rest) = words.split_first()?;
    let &(_, kind, count) = KINDS.iter().find(|(name, ..)| name == word)?;
    let (front, content) = match (kind, rest) {
        (4, [front @ .., last]) => (front, sector(last)?),
        _ => (rest, Vec::new()),
    };
    let numbers = numbers(front)?;
    (numbers.len() == count).then_some(Call { kind, numbers, content })
}

pub fn call_in_words(call: &Call) -> String {
    let (name, ..) = KINDS.iter().find(|(_, kind, _)| *kind == call.kind).expect("each kind has its word");
    let mut words: Vec<String> = vec![name.to_string()];
    words.extend(call.numbers.iter().map(u64::to_string));
    if !call.content.is_empty() {
        words.push(sector_in_words(&call.content));
    }
    words.join(" ")
}

pub fn answer(words: &[&str]) -> Option<Answer> {
    Some(match words {
        ["yes"] => Answer::Yes,
        ["full"] => Answer::Full,
        ["number", n] => Answer::Number(number(n)?),
        ["token", token, "size", size] => Answer::Token { token: number(token)?, size: number(size)? },
        ["sector", content] => Answer::Sector(sector(content)?),
        ["refused", n] => Answer::Refused(REFUSALS.into_iter().find(|r| Some(u64::from(*r)) == number(n))?),
        _ => return None,
    })
}

pub fn answer_in_words(answer: &Answer) -> String {
    match answer {
        Answer::Refused(n) => format!("refused {n}"),
        Answer::Yes => "yes".to_string(),
        Answer::Number(n) => format!("number {n}"),
        Answer::Token { token, size } => format!("token {token} size {size}"),
        Answer::Sector(content) => format!("sector {}", sector_in_words(content)),
        Answer::Full => "full".to_string(),
    }
}

#[cfg(test)]
mod tests {
    use super::*;

    #[test]
    fn words_are_read_back() {
        let whole = format!("write 1 2 3 {}2a", "00".repeat(SECTOR - 1));
        for words in ["make 100", "attach 1", "read 1 2 3", "write 1 1 5 07", &whole, "sync 1 2", "picture 1 2", "copy 3", "drop 1 2", "drop-picture 3"] {
            let call = call(&words.split(' ').collect::<Vec<_>>()).unwrap();
            assert_eq!(call_in_words(&call), words);
        }
        for words in ["yes", "full", "number 3", "token 2 size 100", "sector 07", "refused 11"] {
            let answer = answer(&words.split(' ').collect::<Vec<_>>()).unwrap();
            assert_eq!(answer_in_words(&answer), words);
        }
    }

    #[test]
    fn other_words_are_none() {
        for words in ["", "make", "make 1 2", "make +1", "write 1 1 5", "write 1 1 5 7", "read 1 1", "erase 1"] {
            assert_eq!(call(&words.split_whitespace().collect::<Vec<_>>()), None, "{words}");
        }
        for words in ["", "refused 3", "number", "sector 7", "token 1", "yes yes"] {
            assert_eq!(answer(&words.split_whitespace().collect::<Vec<_>>()), None, "{words}");
        }
    }
}
