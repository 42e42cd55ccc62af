//! Checks a printed order: what has a moment, that each moment lies between call and answer, and what one place answers.
use crate::history::{History, Made};
use crate::words::answer_in_words;
use second_volumes::{Place, core_room};
use second_wire::Answer;

/// The first thing that is wrong with an order of moments.
pub fn check(history: &History, order: &[u64]) -> Result<(), String> {
    let places = places(history, order)?;
    in_time(history, &places)?;
    as_one_place(history, &places)
}

/// Each call that is answered has one moment, each other at most one, one that is refused as one too many has none.
fn places(history: &History, order: &[u64]) -> Result<Vec<usize>, String> {
    let mut has = vec![false; history.calls.len()];
    let mut places = Vec::new();
    for number in order {
        let Some(place) = history.place(*number) else {
            return Err(format!("no call {number} was made"));
        };
        if !history.calls[place].is_counted() {
            return Err(format!("call {number} was refused as one too many and has a moment"));
        }
        if std::mem::replace(&mut has[place], true) {
            return Err(format!("call {number} has two moments"));
        }
        places.push(place);
    }
    let needs = |made: &Made| made.answer.is_some() && made.is_counted();
    match history.calls.iter().zip(has).find(|(made, has)| needs(made) && !has) {
        Some((made, _)) => Err(format!("call {} is answered and has no moment", made.number)),
        None => Ok(places),
    }
}

/// No call has its moment after that of one that was made only when it was answered: then moments can be found on the lines in this order.
fn in_time(history: &History, places: &[usize]) -> Result<(), String> {
    let mut latest: Option<usize> = None;
    for place in places {
        let made = &history.calls[*place];
        if let Some(latest) = latest.map(|latest| &history.calls[latest])
            && made.due() < latest.line
        {
            return Err(format!("call {} was answered before call {} was made, and is done after it", made.number, latest.number));
        }
        if latest.is_none_or(|latest| history.calls[latest].line < made.line) {
            latest = Some(*place);
        }
    }
    Ok(())
}

/// Played in this order in one place, each call is answered as it was.
fn as_one_place(history: &History, places: &[usize]) -> Result<(), String> {
    let mut place = Place::new(core_room(history.size), history.pictured);
    for made in places.iter().map(|place| &history.calls[*place]) {
        let answer = place.answer(&made.call);
        match &made.answer {
            Some((_, told)) if *told != answer => return Err(differs(made.number, told, &answer)),
            _ => {}
        }
    }
    Ok(())
}

fn differs(number: u64, told: &Answer, answer: &Answer) -> String {
    format!("call {number} was answered {}, and one place answers {}", answer_in_words(told), answer_in_words(answer))
}
