//! A short run for every gate; the program plays a million calls.

#[test]
fn twenty_thousand_calls() {
    let tally = volumes_fuzz::play(7, 20).unwrap_or_else(|difference| panic!("{difference}"));
    assert!(tally.met_all(), "{tally:?}");
}

#[test]
fn one_volume_too_many() {
    let tally = volumes_fuzz::play_makes().unwrap_or_else(|difference| panic!("{difference}"));
    assert_eq!((tally.numbers, tally.refused[8]), (4096, 4));
}
