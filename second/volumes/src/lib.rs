//! Volumes and pictures in one place, from the rules alone: who has a volume may use it, under its last token; a picture stands; all has a
//! weight. Unsynced writes are not told apart, since nothing is cut in one place.
mod undo;

use second_wire::{Answer, Call, SECTOR};
use std::collections::BTreeMap;
pub use undo::{Trial, Undo};

pub const MOST: usize = 4096;
pub const LARGEST: u64 = 1 << 40;
pub const LIMIT: u64 = 1 << 62;

const MALFORMED: u8 = 1;
const MISSING: u8 = 2;
const OLD_TOKEN: u8 = 4;
const USED_UP: u8 = 8;
const NOT_BUILT: u8 = 12;

/// Sectors that hold anything but zeros.
type Sectors = BTreeMap<u64, Vec<u8>>;

#[derive(Clone)]
struct Volume {
    size: u64,
    token: u64,
    sectors: Sectors,
}

#[derive(Clone)]
struct Picture {
    size: u64,
    sectors: Sectors,
}

pub struct Place {
    next: u64,
    volumes: BTreeMap<u64, Volume>,
    pictures: BTreeMap<u64, Picture>,
    room: u64,
    /// whether pictures and copies are built
    pictured: bool,
}

/// The room for volumes on houses whose devices have so many sectors.
pub fn core_room(sectors: u64) -> u64 {
    sectors.saturating_sub(2048) / 4
}

fn weight_of(sectors: &Sectors) -> u64 {
    64 + sectors.len() as u64
}

impl Place {
    pub fn new(room: u64, pictured: bool) -> Place {
        Place { next: 1, volumes: BTreeMap::new(), pictures: BTreeMap::new(), room, pictured }
    }

    pub fn weight(&self) -> u64 {
        let volumes: u64 = self.volumes.values().map(|v| weight_of(&v.sectors)).sum();
        let pictures: u64 = self.pictures.values().map(|p| weight_of(&p.sectors)).sum();
        volumes + pictures
    }

    /// The volumes that there are, each with its present token.
    pub fn held_now(&self) -> Vec<(u64, u64)> {
        self.volumes.iter().map(|(number, volume)| (*number, volume.token)).collect()
    }

    /// The number that what is made next gets.
    pub fn next_number(&self) -> u64 {
        self.next
    }

    /// The present token of a volume, if there is such a volume.
    pub fn token(&self, volume: u64) -> Option<u64> {
        self.volumes.get(&volume).map(|v| v.token)
    }

    /// Whether a volume has so at a sector; what is not there is zeros.
    pub fn has(&self, volume: u64, sector: u64, content: &[u8]) -> bool {
        match self.volumes.get(&volume).and_then(|v| v.sectors.get(&sector)) {
            Some(there) => there == content,
            None => content.iter().all(|b| *b == 0),
        }
    }

    pub fn answer(&mut self, call: &Call) -> Answer {
        let n = |i: usize| call.numbers[i];
        let done = match call.kind {
            6 | 7 | 9 if !self.pictured => Err(NOT_BUILT),
            1 => self.make(n(0)),
            2 => self.attach(n(0)),
            3 => self.read(n(0), n(1), n(2)),
            4 => self.write(n(0), n(1), n(2), &call.content),
            5 => self.held(n(0), n(1)).map(|_| Answer::Yes),
            6 => self.picture(n(0), n(1)),
            7 => self.copy(n(0)),
            8 => self.drop_volume(n(0), n(1)),
            9 => self.pictures.remove(&n(0)).map(|_| Answer::Yes).ok_or(MISSING),
            _ => Err(MALFORMED),
        };
        done.unwrap_or_else(Answer::Refused)
    }

    fn room_for(&self, more: u64) -> bool {
        self.weight() + more <= self.room
    }

    /// A number for something new, if there may be one more of its kind.
    fn number(&self, there: usize) -> Result<u64, u8> {
        if there >= MOST || self.next >= LIMIT { Err(USED_UP) } else { Ok(self.next) }
    }

    fn make(&mut self, size: u64) -> Result<Answer, u8> {
        if size == 0 || size > LARGEST {
            return Err(MALFORMED);
        }
        self.add(size, Sectors::new())
    }

    fn add(&mut self, size: u64, sectors: Sectors) -> Result<Answer, u8> {
        let number = self.number(self.volumes.len())?;
        if !self.room_for(weight_of(&sectors)) {
            return Ok(Answer::Full);
        }
        self.next += 1;
        self.volumes.insert(number, Volume { size, token: 0, sectors });
        Ok(Answer::Number(number))
    }

    fn attach(&mut self, number: u64) -> Result<Answer, u8> {
        let volume = self.volumes.get_mut(&number).ok_or(MISSING)?;
        if volume.token + 1 >= LIMIT {
            return Err(USED_UP);
        }
        volume.token += 1;
        Ok(Answer::Token { token: volume.token, size: volume.size })
    }

    fn held(&self, number: u64, token: u64) -> Result<&Volume, u8> {
        let volume = self.volumes.get(&number).ok_or(MISSING)?;
        if token == 0 || token != volume.token { Err(OLD_TOKEN) } else { Ok(volume) }
    }

    fn read(&self, number: u64, token: u64, sector: u64) -> Result<Answer, u8> {
        let volume = self.held(number, token)?;
        if sector >= volume.size {
            return Err(MALFORMED);
        }
        Ok(Answer::Sector(volume.sectors.get(&sector).cloned().unwrap_or(vec![0; SECTOR])))
    }

    fn write(&mut self, number: u64, token: u64, sector: u64, content: &[u8]) -> Result<Answer, u8> {
        if content.len() != SECTOR {
            return Err(MALFORMED);
        }
        let volume = self.held(number, token)?;
        if sector >= volume.size {
            return Err(MALFORMED);
        }
        let blank = content.iter().all(|b| *b == 0);
        if !blank && !volume.sectors.contains_key(&sector) && !self.room_for(1) {
            return Ok(Answer::Full);
        }
        let sectors = &mut self.volumes.get_mut(&number).expect("it is held").sectors;
        if blank {
            sectors.remove(&sector);
        } else {
            sectors.insert(sector, content.to_vec());
        }
        Ok(Answer::Yes)
    }

    fn drop_volume(&mut self, number: u64, token: u64) -> Result<Answer, u8> {
        self.held(number, token)?;
        self.volumes.remove(&number);
        Ok(Answer::Yes)
    }

    fn picture(&mut self, number: u64, token: u64) -> Result<Answer, u8> {
        let volume = self.held(number, token)?;
        let (size, sectors) = (volume.size, volume.sectors.clone());
        let taken = self.number(self.pictures.len())?;
        if !self.room_for(weight_of(&sectors)) {
            return Ok(Answer::Full);
        }
        self.next += 1;
        self.pictures.insert(taken, Picture { size, sectors });
        Ok(Answer::Number(taken))
    }

    fn copy(&mut self, number: u64) -> Result<Answer, u8> {
        let Picture { size, sectors } = self.pictures.get(&number).ok_or(MISSING)?.clone();
        self.add(size, sectors)
    }
}

#[cfg(test)]
mod tests {
    use super::*;

    fn call(kind: u8, numbers: &[u64], fill: Option<u8>) -> Call {
        Call { kind, numbers: numbers.to_vec(), content: fill.map_or(Vec::new(), |b| vec![b; SECTOR]) }
    }

    fn sector(byte: u8) -> Answer {
        Answer::Sector(vec![byte; SECTOR])
    }

    #[test]
    fn the_worked_cases() {
        let mut place = Place::new(1 << 20, true);
        let rows = [
            (call(1, &[100], None), Answer::Number(1)),
            (call(2, &[1], None), Answer::Token { token: 1, size: 100 }),
            (call(4, &[1, 1, 5], Some(7)), Answer::Yes),
            (call(3, &[1, 1, 5], None), sector(7)),
            (call(2, &[1], None), Answer::Token { token: 2, size: 100 }),
            (call(4, &[1, 1, 5], Some(8)), Answer::Refused(4)),
            (call(3, &[1, 2, 5], None), sector(7)),
            (call(6, &[1, 2], None), Answer::Number(2)),
            (call(4, &[1, 2, 5], Some(9)), Answer::Yes),
            (call(7, &[2], None), Answer::Number(3)),
            (call(2, &[3], None), Answer::Token { token: 1, size: 100 }),
            (call(3, &[3, 1, 5], None), sector(7)),
            (call(4, &[3, 1, 5], Some(6)), Answer::Yes),
            (call(3, &[1, 2, 5], None), sector(9)),
            (call(3, &[1, 2, 100], None), Answer::Refused(1)),
            (call(3, &[9, 2, 0], None), Answer::Refused(2)),
            (call(9, &[2], None), Answer::Yes),
            (call(3, &[3, 1, 5], None), sector(6)),
        ];
        for (i, (call, answer)) in rows.into_iter().enumerate() {
            assert_eq!(place.answer(&call), answer, "row {i}");
        }
        assert_eq!(place.weight(), 2 * 65);
    }

    #[test]
    fn full_only_above_the_room() {
        let mut place = Place::new(65, true);
        assert_eq!(place.answer(&call(1, &[10], None)), Answer::Number(1));
        assert_eq!(place.answer(&call(2, &[1], None)), Answer::Token { token: 1, size: 10 });
        assert_eq!(place.answer(&call(4, &[1, 1, 0], Some(1))), Answer::Yes);
        assert_eq!(place.answer(&call(4, &[1, 1, 1], Some(1))), Answer::Full);
        assert_eq!(place.answer(&call(4, &[1, 1, 1], Some(0))), Answer::Yes);
        assert_eq!(place.answer(&call(4, &[1, 1, 0], Some(0))), Answer::Yes);
        assert_eq!(place.answer(&call(4, &[1, 1, 1], Some(1))), Answer::Yes);
        assert_eq!(place.weight(), 65);
    }
}
