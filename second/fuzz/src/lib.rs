//! Compares the proved codec with the second one: what bytes decode to, what is refused and by which number, and what is encoded.
mod proved;

use proved::{AnswerParts, CallParts, FrameParts};
use random::Random;
use second_wire::{Answer, Call, Framed, SECTOR, decode_frame, encode_frame, shape};

/// How many inputs came to what, so that a run shows that it met all cases.
#[derive(Clone, Copy, Debug, Default)]
pub struct Tally {
    pub calls: usize,
    pub malformed: usize,
    pub not_built: usize,
    pub answers: usize,
    pub no_answers: usize,
    pub frames: usize,
    pub short: usize,
    pub broken: usize,
}

impl Tally {
    pub fn met_all(&self) -> bool {
        [
            self.calls,
            self.malformed,
            self.not_built,
            self.answers,
            self.no_answers,
            self.frames,
            self.short,
            self.broken,
        ]
        .iter()
        .all(|n| *n > 0)
    }
}

/// Plays so many inputs of a seed; the first difference is told with its bytes.
pub fn play(seed: u64, inputs: usize) -> Result<Tally, String> {
    let mut random = Random::new(seed);
    let mut tally = Tally::default();
    for _ in 0..inputs {
        let bytes = input(&mut random);
        compare_call(&bytes, &mut tally)?;
        compare_answer(&bytes, &mut tally)?;
        compare_frame(&bytes, &mut tally)?;
        compare_puts(&mut random)?;
    }
    Ok(tally)
}

/// Bytes of one of several makes, some of them damaged.
fn input(random: &mut Random) -> Vec<u8> {
    let mut bytes = match random.below(5) {
        0 => {
            let length = random.below(40);
            random.bytes(length)
        }
        1 => {
            let length = random.below(1200);
            random.bytes(length)
        }
        2 => some_call(random).encode(),
        3 => some_answer(random).encode(),
        _ => {
            let length = random.below(600);
            let body = random.bytes(length);
            encode_frame(random.number(), &body)
        }
    };
    match random.below(6) {
        0 => bytes.truncate(random.below(bytes.len() + 1)),
        1 => {
            let more = 1 + random.below(20);
            bytes.extend(random.bytes(more));
        }
        2 if !bytes.is_empty() => {
            let at = random.below(bytes.len().min(8));
            bytes[at] = random.below(16) as u8;
        }
        3 if !bytes.is_empty() => {
            let at = random.below(bytes.len());
            bytes[at] ^= 1 << random.below(8);
        }
        _ => {}
    }
    bytes
}

fn some_call(random: &mut Random) -> Call {
    let kind = 1 + random.below(9) as u8;
    let (count, content) = shape(kind).expect("kinds are 1 to 9");
    let numbers = (0..count).map(|_| random.number()).collect();
    Call { kind, numbers, content: random.bytes(content) }
}

fn some_answer(random: &mut Random) -> Answer {
    match random.below(6) {
        0 => Answer::Refused(random.below(16) as u8),
        1 => Answer::Yes,
        2 => Answer::Number(random.number()),
        3 => Answer::Token { token: random.number(), size: random.number() },
        4 => Answer::Sector(random.bytes(SECTOR)),
        _ => Answer::Full,
    }
}

fn same<T: PartialEq + std::fmt::Debug>(what: &str, bytes: &[u8], proved: T, second: T) -> Result<(), String> {
    if proved == second {
        return Ok(());
    }
    let hex: String = bytes.iter().map(|b| format!("{b:02x}")).collect();
    Err(format!("{what} {hex}: the proved code has {proved:?}, the second {second:?}"))
}

fn compare_call(bytes: &[u8], tally: &mut Tally) -> Result<(), String> {
    let second = match Call::decode(bytes) {
        Ok(call) => {
            tally.calls += 1;
            let number = |i: usize| call.numbers.get(i).copied().unwrap_or(0);
            CallParts { refusal: 0, kind: call.kind.into(), first: number(0), second: number(1), third: number(2) }
        }
        Err(refusal) => {
            *(if refusal == 1 { &mut tally.malformed } else { &mut tally.not_built }) += 1;
            CallParts { refusal: refusal.into(), kind: 0, first: 0, second: 0, third: 0 }
        }
    };
    same("call", bytes, proved::call(bytes), second)?;
    let mut out = [0; 1400];
    let again = if second.refusal == 0 { bytes } else { &[] };
    same("call again", bytes, proved::call_again(bytes, &mut out), again)
}

fn compare_answer(bytes: &[u8], tally: &mut Tally) -> Result<(), String> {
    let parts = |case, first, second| AnswerParts { case, first, second };
    let answer = Answer::decode(bytes);
    *(if answer.is_some() { &mut tally.answers } else { &mut tally.no_answers }) += 1;
    let second = match answer {
        Some(Answer::Refused(number)) => parts(0, number.into(), 0),
        Some(Answer::Yes) => parts(1, 0, 0),
        Some(Answer::Number(n)) => parts(2, n, 0),
        Some(Answer::Token { token, size }) => parts(3, token, size),
        Some(Answer::Sector(_)) => parts(4, 0, 0),
        Some(Answer::Full) => parts(5, 0, 0),
        None => parts(6, 0, 0),
    };
    same("answer", bytes, proved::answer(bytes), second)
}

fn compare_frame(bytes: &[u8], tally: &mut Tally) -> Result<(), String> {
    let second = match decode_frame(bytes) {
        Framed::Whole { customer, body, after } => {
            tally.frames += 1;
            FrameParts { state: 0, customer, body: body.len() as u64, after: after.len() as u64 }
        }
        Framed::Short => {
            tally.short += 1;
            FrameParts { state: 1, customer: 0, body: 0, after: 0 }
        }
        Framed::Broken => {
            tally.broken += 1;
            FrameParts { state: 2, customer: 0, body: 0, after: 0 }
        }
    };
    same("frame", bytes, proved::frame(bytes), second)
}

/// What each encodes of a call, an answer and a frame.
fn compare_puts(random: &mut Random) -> Result<(), String> {
    let mut out = [0; 1400];
    let call = some_call(random);
    let number = |i: usize| call.numbers.get(i).copied().unwrap_or(0);
    let content = if call.content.is_empty() { vec![0; SECTOR] } else { call.content.clone() };
    let put = proved::put_call(call.kind, [number(0), number(1), number(2)], &content, &mut out);
    same("put call", &call.encode(), put, call.encode().as_slice())?;

    let answer = some_answer(random);
    let (case, first, second) = match &answer {
        Answer::Refused(number) => (0, u64::from(*number), 0),
        Answer::Yes => (1, 0, 0),
        Answer::Number(n) => (2, *n, 0),
        Answer::Token { token, size } => (3, *token, *size),
        Answer::Sector(_) => (4, 0, 0),
        Answer::Full => (5, 0, 0),
    };
    let content = if let Answer::Sector(content) = &answer { content.clone() } else { Vec::new() };
    let put = proved::put_answer(case, [first, second], &content, &mut out);
    // a refusal by a number that has no meaning is not put
    let expected = if Answer::decode(&answer.encode()).is_some() { answer.encode() } else { Vec::new() };
    same("put answer", &answer.encode(), put, expected.as_slice())?;

    let length = random.below(1300);
    let body = random.bytes(length);
    let customer = random.number();
    let put = proved::put_frame(customer, &body, &mut out);
    same("put frame", &body, put, encode_frame(customer, &body).as_slice())
}
