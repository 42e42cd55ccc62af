//! Volumes in one place on which a call can be taken back, and a digest of all that there is, for searches.
use crate::{Picture, Place, Sectors, Volume};
use second_wire::{Answer, Call};
use std::hash::{DefaultHasher, Hash, Hasher};

pub struct Trial {
    place: Place,
    digest: u64,
}

/// How to take a call back. Calls are taken back in the opposite order.
pub struct Undo(Change);

/// What a call changed, with what was there before.
enum Change {
    Nothing,
    Make(u64),
    Attach(u64),
    Write { volume: u64, sector: u64, was: Option<Vec<u8>> },
    Drop(u64, Box<Volume>),
    Picture(u64),
    DropPicture(u64, Box<Picture>),
}

impl Undo {
    pub fn is_nothing(&self) -> bool {
        matches!(self.0, Change::Nothing)
    }
}

fn digest(of: impl Hash) -> u64 {
    let mut hasher = DefaultHasher::new();
    of.hash(&mut hasher);
    hasher.finish()
}

fn digest_of_sector(volume: u64, sector: u64, content: &[u8]) -> u64 {
    digest(("sector", volume, sector, content))
}

/// The digest of a thing is the sum of those of its parts, so that a part can be taken out of it.
fn digest_of_sectors(number: u64, sectors: &Sectors) -> u64 {
    sectors.iter().fold(0, |sum, (sector, content)| sum.wrapping_add(digest_of_sector(number, *sector, content)))
}

fn digest_of_head(number: u64, volume: &Volume) -> u64 {
    digest(("volume", number, volume.size, volume.token))
}

fn digest_of_picture(number: u64, picture: &Picture) -> u64 {
    digest(("picture", number, picture.size)).wrapping_add(digest_of_sectors(number, &picture.sectors))
}

impl Trial {
    /// No volumes and pictures yet.
    pub fn new(room: u64, pictured: bool) -> Trial {
        Trial { place: Place::new(room, pictured), digest: 0 }
    }

    pub fn place(&self) -> &Place {
        &self.place
    }

    /// Equal where all that there is is equal; hardly ever otherwise. Numbers that were given and dropped don't count.
    pub fn digest(&self) -> u64 {
        self.digest
    }

    /// Does a call; by what it hands back the call can be taken back.
    pub fn does(&mut self, call: &Call) -> (Answer, Undo) {
        let number = call.numbers[0];
        let before = self.before(call);
        let answer = self.place.answer(call);
        let change = match (call.kind, &answer, before) {
            (1 | 7, Answer::Number(made), _) => Change::Make(*made),
            (6, Answer::Number(made), _) => Change::Picture(*made),
            (2, Answer::Token { .. }, _) => Change::Attach(number),
            (4 | 8 | 9, Answer::Yes, before) => before,
            _ => Change::Nothing,
        };
        self.digest = self.digest.wrapping_add(self.part(&change)).wrapping_sub(self.part_before(&change));
        (answer, Undo(change))
    }

    /// What a write or a drop would have to put back.
    fn before(&self, call: &Call) -> Change {
        let number = call.numbers[0];
        match call.kind {
            4 => {
                let was = self.place.volumes.get(&number).and_then(|v| v.sectors.get(&call.numbers[2]));
                if was.map_or(call.content.iter().all(|b| *b == 0), |was| *was == call.content) {
                    Change::Nothing
                } else {
                    Change::Write { volume: number, sector: call.numbers[2], was: was.cloned() }
                }
            }
            8 => self.place.volumes.get(&number).map_or(Change::Nothing, |v| Change::Drop(number, Box::new(v.clone()))),
            9 => self.place.pictures.get(&number).map_or(Change::Nothing, |p| Change::DropPicture(number, Box::new(p.clone()))),
            _ => Change::Nothing,
        }
    }

    /// The digest of what a call changed, as it is now.
    fn part(&self, change: &Change) -> u64 {
        match change {
            Change::Make(number) => {
                let volume = &self.place.volumes[number];
                digest_of_head(*number, volume).wrapping_add(digest_of_sectors(*number, &volume.sectors))
            }
            Change::Attach(number) => digest_of_head(*number, &self.place.volumes[number]),
            Change::Write { volume, sector, .. } => {
                self.place.volumes[volume].sectors.get(sector).map_or(0, |now| digest_of_sector(*volume, *sector, now))
            }
            Change::Picture(number) => digest_of_picture(*number, &self.place.pictures[number]),
            Change::Nothing | Change::Drop(..) | Change::DropPicture(..) => 0,
        }
    }

    /// The digest of the same, as it was before.
    fn part_before(&self, change: &Change) -> u64 {
        match change {
            Change::Attach(number) => {
                let volume = &self.place.volumes[number];
                digest(("volume", number, volume.size, volume.token - 1))
            }
            Change::Write { volume, sector, was } => was.as_ref().map_or(0, |was| digest_of_sector(*volume, *sector, was)),
            Change::Drop(number, was) => digest_of_head(*number, was).wrapping_add(digest_of_sectors(*number, &was.sectors)),
            Change::DropPicture(number, was) => digest_of_picture(*number, was),
            Change::Nothing | Change::Make(_) | Change::Picture(_) => 0,
        }
    }

    pub fn undo(&mut self, Undo(change): Undo) {
        self.digest = self.digest.wrapping_sub(self.part(&change)).wrapping_add(self.part_before(&change));
        let place = &mut self.place;
        match change {
            Change::Nothing => {}
            Change::Make(number) => {
                place.volumes.remove(&number);
                place.next = number;
            }
            Change::Picture(number) => {
                place.pictures.remove(&number);
                place.next = number;
            }
            Change::Attach(number) => place.volumes.get_mut(&number).expect("it was attached").token -= 1,
            Change::Write { volume, sector, was } => {
                let sectors = &mut place.volumes.get_mut(&volume).expect("it was written").sectors;
                match was {
                    Some(was) => sectors.insert(sector, was),
                    None => sectors.remove(&sector),
                };
            }
            Change::Drop(number, was) => {
                place.volumes.insert(number, *was);
            }
            Change::DropPicture(number, was) => {
                place.pictures.insert(number, *was);
            }
        }
    }
}

#[cfg(test)]
mod tests {
    use super::*;
    use random::Random;
    use second_wire::{SECTOR, shape};

    fn some_call(random: &mut Random) -> Call {
        let kind = [1, 2, 2, 3, 4, 4, 4, 4, 5, 6, 7, 8, 9][random.below(13)];
        let (count, content) = shape(kind).unwrap();
        let mut numbers: Vec<u64> = (0..count).map(|_| 1 + random.below(4) as u64).collect();
        if kind == 1 {
            numbers = vec![4];
        }
        Call { kind, numbers, content: vec![random.below(3) as u8; content] }
    }

    #[test]
    fn calls_are_taken_back() {
        for seed in 0..200 {
            let mut random = Random::new(seed);
            let (mut place, mut trial) = (Place::new(400, true), Trial::new(400, true));
            let mut undos = Vec::new();
            for _ in 0..60 {
                let call = some_call(&mut random);
                let before = (trial.digest(), trial.place().weight(), trial.place().next_number(), trial.place().held_now());
                let (answer, undo) = trial.does(&call);
                assert_eq!(place.answer(&call), answer, "seed {seed}");
                assert_eq!(undo.is_nothing(), before.0 == trial.digest(), "seed {seed} {call:?}");
                undos.push((before, undo));
            }
            while let Some((before, undo)) = undos.pop() {
                trial.undo(undo);
                let now = (trial.digest(), trial.place().weight(), trial.place().next_number(), trial.place().held_now());
                assert_eq!(now, before, "seed {seed}");
            }
        }
    }

    #[test]
    fn the_digest_is_that_of_what_there_is() {
        let call = |kind, numbers: &[u64], byte: Option<u8>| Call { kind, numbers: numbers.to_vec(), content: byte.map_or(Vec::new(), |b| vec![b; SECTOR]) };
        let digest = |writes: &[(u64, u8)]| {
            let mut trial = Trial::new(1000, true);
            trial.does(&call(1, &[10], None));
            trial.does(&call(2, &[1], None));
            for (sector, byte) in writes {
                trial.does(&call(4, &[1, 1, *sector], Some(*byte)));
            }
            trial.digest()
        };
        assert_eq!(digest(&[(1, 5), (2, 6)]), digest(&[(2, 6), (1, 7), (1, 5)]));
        assert_eq!(digest(&[]), digest(&[(3, 1), (3, 0)]));
        assert_ne!(digest(&[(1, 5)]), digest(&[(1, 6)]));
        assert_ne!(digest(&[(1, 5)]), digest(&[(2, 5)]));
    }
}
