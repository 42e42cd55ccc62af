//! Short runs for every gate; the program plays longer ones.
use second_copies::all::explore;
use second_copies::bounds::{Bounds, LOOKS, SHORT};
use second_copies::history::Check;
use second_copies::mistakes::Mistake;
use second_copies::walks::{STEPS, settle, walks};

#[test]
fn walks_without_fault() {
    let mut walked = walks(1, 2000, STEPS, None, Check::ALL).unwrap_or_else(|fault| panic!("{fault:?}"));
    assert!(walked.tally.met_all(), "{walked:?}");
}

#[test]
fn worlds_settle() {
    let (most, _) = settle(100_000, 300).unwrap_or_else(|fault| panic!("{fault:?}"));
    assert!(most < 400, "{most}");
}

#[test]
fn all_orders_within_bounds() {
    for bounds in SHORT {
        let explored = explore(None, Check::ALL, *bounds).unwrap_or_else(|fault| panic!("{fault:?}"));
        assert!(explored.whole && explored.states > 1000, "{explored:?}");
    }
}

#[test]
fn walks_find_each_mistake() {
    for mistake in Mistake::ALL {
        let unseen = Mistake::UNSEEN.contains(mistake);
        let found = walks(1, if unseen { 300 } else { 20_000 }, STEPS, Some(*mistake), Check::ALL);
        assert_eq!(found.is_err(), !unseen, "{mistake:?}");
    }
}

#[test]
fn exploration_finds_mistakes() {
    use Mistake::*;
    for mistake in [AcceptsBelow, IgnoresTheirs, ProposesAgain, LeadsOn, LearnsByVersion, SendsFirst, RecoveringAccepts, TwoVersions] {
        let found = LOOKS.iter().any(|bounds| explore(Some(mistake), Check::ALL, Bounds { states: 60_000, ..*bounds }).is_err());
        assert!(found, "{mistake:?}");
    }
}
