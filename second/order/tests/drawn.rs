//! Drawn rehearsals: an order is found of each; with one answer changed mostly none.
use random::Random;
use second_order::drawn::{Shape, another, drawn};
use second_order::history::{BUSY, History, Printed, read};
use second_order::printed::check;
use second_order::report::report;
use second_order::search::{Found, looked_at};

/// Where the search of a changed one gives up.
const STATES: usize = 5_000;

fn one(seed: u64) -> History {
    let mut all = read(&drawn(seed, &Shape::by(seed)));
    assert_eq!(all.len(), 1);
    all.pop().unwrap()
}

#[test]
fn an_order_is_found_of_each() {
    for seed in 0..1000 {
        let history = one(seed);
        let report = report(&history);
        assert!(report.is_right() && report.agrees(), "seed {seed}: {report}");
        let Found::Order(order) = report.found else { panic!("seed {seed}") };
        assert_eq!(check(&history, &order), Ok(()), "seed {seed}");
    }
}

#[test]
fn pictures_and_copies() {
    let mut undecided = 0;
    for seed in 0..300 {
        let shape = Shape { heads: 6, pictured: true, ..Shape::by(seed) };
        let mut history = read(&drawn(seed, &shape)).pop().unwrap();
        history.pictured = true;
        match looked_at(&history, STATES).0 {
            Found::Order(order) => assert_eq!(check(&history, &order), Ok(()), "seed {seed}"),
            Found::None => panic!("seed {seed}"),
            Found::Undecided => undecided += 1,
        }
    }
    assert!(undecided < 10, "{undecided} not decided");
}

/// Changes one answer.
fn change(history: &mut History, random: &mut Random) {
    let answers = history.calls.iter_mut().filter_map(|c| c.answer.as_mut()).filter(|(_, answer)| *answer != BUSY);
    let mut answers: Vec<_> = answers.collect();
    let i = random.below(answers.len());
    answers[i].1 = another(&answers[i].1, random);
}

#[test]
fn mostly_none_where_an_answer_is_changed() {
    let (mut none, mut undecided) = (0, 0);
    for seed in 0..500 {
        let mut history = one(seed);
        change(&mut history, &mut Random::new(seed));
        assert!(as_printed(&history).is_err(), "seed {seed}");
        match looked_at(&history, STATES).0 {
            Found::Order(order) => assert_eq!(check(&history, &order), Ok(()), "seed {seed}"),
            Found::None => none += 1,
            Found::Undecided => undecided += 1,
        }
    }
    assert!(none > 400 && undecided < 20, "{none} none, {undecided} not decided");
}

/// The printed order can't explain an answer that was changed.
fn as_printed(history: &History) -> Result<(), String> {
    let Some(Printed::Order(order)) = &history.printed else { panic!("an order is printed") };
    check(history, order)
}
