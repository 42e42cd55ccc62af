//! What is found of a rehearsal.
use crate::history::{History, Printed};
use crate::printed;
use crate::search::{Found, STATES, search};
use std::fmt;

pub struct Report {
    pub faults: Vec<String>,
    /// what is wrong with the end of what was printed
    pub end: Result<(), String>,
    pub found: Found,
    /// whether `no order` is printed
    none: bool,
}

pub fn report(history: &History) -> Report {
    let faults = history.faults.iter().map(ToString::to_string).collect();
    let none = history.printed == Some(Printed::NoOrder);
    Report { faults, end: end(history), found: search(history, STATES), none }
}

fn end(history: &History) -> Result<(), String> {
    match (&history.printed, history.cuts) {
        (None, _) => Err("no end is printed".to_string()),
        (Some(Printed::NoOrder), _) => Err("none is printed".to_string()),
        (Some(Printed::Order(_)), None) => Err("no number of cuts is printed".to_string()),
        (Some(Printed::Order(_)), Some(cuts)) if cuts > 0 => Err(format!("{cuts} cuts")),
        (Some(Printed::Order(order)), Some(_)) => printed::check(history, order),
    }
}

impl Report {
    /// Whether an order is printed, and is right, where the search found one, and none is printed where it found none.
    pub fn agrees(&self) -> bool {
        match self.found {
            Found::Order(_) => self.end.is_ok(),
            Found::None => self.none,
            Found::Undecided => false,
        }
    }

    pub fn is_right(&self) -> bool {
        self.faults.is_empty() && self.end.is_ok() && matches!(self.found, Found::Order(_))
    }
}

impl fmt::Display for Report {
    fn fmt(&self, f: &mut fmt::Formatter<'_>) -> fmt::Result {
        for fault in &self.faults {
            writeln!(f, "{fault}")?;
        }
        match &self.end {
            Ok(()) => writeln!(f, "printed order: right")?,
            Err(wrong) => writeln!(f, "printed order: {wrong}")?,
        }
        match &self.found {
            Found::Order(_) => writeln!(f, "order found")?,
            Found::None => writeln!(f, "none")?,
            Found::Undecided => writeln!(f, "not decided in {STATES} states")?,
        }
        writeln!(f, "{}", if self.agrees() { "both agree" } else { "they differ" })
    }
}
