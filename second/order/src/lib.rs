//! Checks what the program `rehearse` prints of a rehearsal (docs/FORMATS.md): calls at houses, what they are answered, houses that fall
//! and rise, and in the end an order in which one place would have answered the same. Written apart from `rehearse`.
//!
//! - `words`, `history`: the lines are read. What can't be seen of houses at all is a fault: an answer before its call or twice, a call at a
//!   house that fell, a call refused as one too many where fewer than eight wait.
//! - `printed`: the printed order is right if each answered call has one moment in it, between its line and that of its answer, a call that
//!   was never answered has at most one, one refused by 11 has none, and the volumes of `second-volumes`, played in this order, give each
//!   answer. No house's fall may be used to take anything back: there are no cuts.
//! - `search`, `facts`: an order is sought apart from the printed one.
//! - `report`: whether both agree.
//! - `drawn`: rehearsals drawn by a seed, for the tests.
pub mod drawn;
pub mod facts;
pub mod history;
pub mod printed;
pub mod report;
pub mod search;
pub mod words;
