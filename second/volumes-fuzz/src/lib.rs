//! Plays random calls on the proved volumes and on the second ones: answers and weights must be the same.
use random::Random;
use second_volumes::{LARGEST, LIMIT, MOST, Place, core_room};
use second_wire::{Answer, Call, Framed, SECTOR, decode_frame, encode_frame};

unsafe extern "C" {
    fn place_play(sectors: u64, calls: *const u8, calls_len: usize, out: *mut u8, out_len: usize) -> usize;
}

/// How many calls a run on one place has.
pub const RUN: usize = 1000;

/// How often each answer came, so that a run shows that it met all cases.
#[derive(Clone, Copy, Debug, Default)]
pub struct Tally {
    pub calls: usize,
    pub refused: [usize; 13],
    pub yes: usize,
    pub numbers: usize,
    pub tokens: usize,
    pub sectors: usize,
    pub full: usize,
}

impl Tally {
    fn note(&mut self, answer: &Answer) {
        self.calls += 1;
        match answer {
            Answer::Refused(number) => self.refused[usize::from(*number)] += 1,
            Answer::Yes => self.yes += 1,
            Answer::Number(_) => self.numbers += 1,
            Answer::Token { .. } => self.tokens += 1,
            Answer::Sector(_) => self.sectors += 1,
            Answer::Full => self.full += 1,
        }
    }

    pub fn met_all(&self) -> bool {
        let refused = [1, 2, 4, 12].iter().all(|n| self.refused[*n] > 0);
        refused && [self.yes, self.numbers, self.tokens, self.sectors, self.full].iter().all(|n| *n > 0)
    }
}

/// Plays so many runs of a seed, each on a blank place; the first difference is told.
pub fn play(seed: u64, runs: usize) -> Result<Tally, String> {
    let mut random = Random::new(seed);
    let mut tally = Tally::default();
    for run in 0..runs {
        // rooms from too small for one volume to ample
        let sectors = 2048 + 4 * [0, 63, 64, 65, 200, 400, 1000, 1 << 20][random.below(8)];
        let calls = calls(&mut random, core_room(sectors));
        compare(sectors, &calls, &mut tally).map_err(|difference| format!("run {run}, {difference}"))?;
    }
    Ok(tally)
}

/// Makes more volumes than there may be.
pub fn play_makes() -> Result<Tally, String> {
    let mut tally = Tally::default();
    let makes = vec![Call { kind: 1, numbers: vec![1], content: Vec::new() }.encode(); MOST + 4];
    compare(1 << 30, &makes, &mut tally)?;
    Ok(tally)
}

/// Plays calls on both and compares each answer, and what all weigh after it.
fn compare(sectors: u64, calls: &[Vec<u8>], tally: &mut Tally) -> Result<(), String> {
    let mut place = Place::new(core_room(sectors), false);
    for (i, (bytes, (weight, answer))) in calls.iter().zip(proved(sectors, calls)?).enumerate() {
        let second = Call::decode(bytes).map_or_else(Answer::Refused, |call| place.answer(&call));
        tally.note(&second);
        if Answer::decode(&answer).as_ref() != Some(&second) || weight != place.weight() {
            let call = Call::decode(bytes).map(|c| (c.kind, c.numbers));
            let proved = Answer::decode(&answer);
            let there = place.weight();
            return Err(format!("call {i} {call:?}: proved {proved:?} at {weight}, second {second:?} at {there}"));
        }
    }
    Ok(())
}

/// The answers of the proved code, each with what all weigh after it.
fn proved(sectors: u64, calls: &[Vec<u8>]) -> Result<Vec<(u64, Vec<u8>)>, String> {
    let sent: Vec<u8> = calls.iter().enumerate().flat_map(|(i, call)| encode_frame(i as u64, call)).collect();
    let mut out = vec![0; calls.len() * (12 + 1 + SECTOR)];
    let n = unsafe { place_play(sectors, sent.as_ptr(), sent.len(), out.as_mut_ptr(), out.len()) };
    let mut rest = &out[..n];
    let mut answers = Vec::new();
    while let Framed::Whole { customer, body, after } = decode_frame(rest) {
        answers.push((customer, body.to_vec()));
        rest = after;
    }
    if answers.len() == calls.len() { Ok(answers) } else { Err(format!("{} answers to {}", answers.len(), calls.len())) }
}

/// A run of calls on a few volumes and sectors, so that they meet, mostly under the present token; some with numbers at the edges.
fn calls(random: &mut Random, room: u64) -> Vec<Vec<u8>> {
    let mut guide = Place::new(room, false);
    (0..RUN)
        .map(|_| {
            let call = some_call(random, &guide.held_now());
            let bytes = call.encode();
            if Call::decode(&bytes).is_ok() {
                guide.answer(&call);
            }
            bytes
        })
        .collect()
}

fn some_call(random: &mut Random, held: &[(u64, u64)]) -> Call {
    let (mut volume, mut token) = if held.is_empty() { (1, 1) } else { held[random.below(held.len())] };
    match random.below(16) {
        0 => volume = random.number(),
        1 => token = random.number(),
        2 => token = token.wrapping_sub(1),
        _ => {}
    }
    let sector = if random.below(10) == 0 { random.number() } else { random.below(14) as u64 };
    let size = [0, 1, 10, 12, 100, LARGEST, LARGEST + 1, LIMIT][random.below(8)];
    let (kind, numbers) = match random.below(40) {
        0..=2 => (1, vec![size]),
        3..=6 => (2, vec![volume]),
        7..=18 => (3, vec![volume, token, sector]),
        19..=34 => (4, vec![volume, token, sector]),
        35 | 36 => (5, vec![volume, token]),
        37 => (8, vec![volume, token]),
        38 => (6, vec![volume, token]),
        _ => (7, vec![volume]),
    };
    let mut content = Vec::new();
    if kind == 4 {
        content = vec![[0, 0, 1, 255][random.below(4)]; SECTOR];
        // often one byte of its own somewhere
        content[random.below(SECTOR)] = random.below(3) as u8;
    }
    Call { kind, numbers, content }
}
