//! The search beside a plain one that tries all orders, on short rehearsals.
use random::Random;
use second_order::drawn::{Shape, another, drawn};
use second_order::history::{BUSY, History, read};
use second_order::search::{Found, STATES, search};
use second_volumes::{Place, core_room};

/// Whether calls that may come next can be done one after another until all answered ones are, by trying all; None where that takes long.
fn any_order(history: &History, order: &mut Vec<usize>, tries: &mut usize) -> Option<bool> {
    *tries = tries.checked_sub(1)?;
    let mut place = Place::new(core_room(history.size), history.pictured);
    for i in order.iter() {
        let answer = place.answer(&history.calls[*i].call);
        if history.calls[*i].answer.as_ref().is_some_and(|(_, told)| *told != answer) {
            return Some(false);
        }
    }
    let left: Vec<usize> = (0..history.calls.len()).filter(|i| !order.contains(i) && history.calls[*i].is_counted()).collect();
    let due = left.iter().map(|i| history.calls[*i].due()).min();
    let Some(due) = due.filter(|due| *due < usize::MAX) else {
        return Some(true);
    };
    for i in left.into_iter().filter(|i| history.calls[*i].line < due) {
        order.push(i);
        let found = any_order(history, order, tries);
        order.pop();
        if found != Some(false) {
            return found;
        }
    }
    Some(false)
}

fn some_shape(random: &mut Random) -> Shape {
    // room for ten volumes, or for few
    let size = 2048 + 4 * [1000, 64, 66, 130][random.below(4)];
    let (sectors, bytes) = (1 + random.below(2), 2 + random.below(2));
    let (hurry, heads) = (4 + random.below(4), 1 + random.below(7));
    Shape { houses: 3, size, events: 10 + random.below(6), sectors, bytes, hurry, heads, pictured: random.below(3) == 0 }
}

#[test]
fn both_find_the_same() {
    let (mut nones, mut long) = (0, 0);
    for seed in 0..4000 {
        let mut random = Random::new(seed);
        let shape = some_shape(&mut random);
        let mut history = read(&drawn(seed, &shape)).pop().unwrap();
        history.pictured = shape.pictured;
        assert_eq!(history.faults, []);
        for _ in 0..seed % 3 {
            let answers = history.calls.iter_mut().filter_map(|c| c.answer.as_mut()).filter(|(_, a)| *a != BUSY);
            let mut answers: Vec<_> = answers.collect();
            if !answers.is_empty() {
                let i = random.below(answers.len());
                answers[i].1 = another(&answers[i].1, &mut random);
            }
        }
        let Some(found) = any_order(&history, &mut Vec::new(), &mut 3000) else {
            long += 1;
            continue;
        };
        match search(&history, STATES) {
            Found::Order(_) => assert!(found, "seed {seed}"),
            Found::None => assert!(!found, "seed {seed} {shape:?}"),
            Found::Undecided => panic!("seed {seed}"),
        }
        nones += usize::from(!found);
    }
    assert!(nones > 1000 && long < 1000, "{nones} none, {long} too long");
}
