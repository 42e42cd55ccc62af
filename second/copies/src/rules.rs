//! What is free in the definitions, and the planted mistake, if any.
use crate::mistakes::Mistake;

#[derive(Clone, Debug)]
pub struct Rules {
    pub mistake: Option<Mistake>,
    /// After how many ticks without a leader copy m takes the next ballot: m and so many; none: each at once.
    pub patience: Option<u64>,
    /// The service holds so many blocks that aren't empty; with more entries, a keeper forgets markers.
    pub capacity: usize,
    /// A part that would leave more entries finds no place.
    pub limit: usize,
    /// Whether markers are forgotten for a part, too.
    pub forgets: bool,
    /// So many blocks go into a packet.
    pub portion: usize,
}

impl Rules {
    pub fn has(&self, mistake: Mistake) -> bool {
        self.mistake == Some(mistake)
    }
}
