//! A short run for every gate; the program plays a million.

#[test]
fn twenty_thousand_inputs() {
    let tally = wire_fuzz::play(7, 20_000).unwrap_or_else(|difference| panic!("{difference}"));
    assert!(tally.met_all(), "{tally:?}");
}
