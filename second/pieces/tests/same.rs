//! Both programs find the same.

const ARGS: &str = include_str!("../../../crates/pieces_bench/args");
const STDOUT: &str = include_str!("../../../crates/pieces_bench/stdout");

#[test]
fn both_print_the_same() {
    let numbers: Vec<u64> = ARGS.lines().map(|line| line.parse().unwrap()).collect();
    let mut out = Vec::new();
    pieces_bench::run(numbers[0], numbers[1], &mut out).unwrap();
    assert_eq!(String::from_utf8(out).unwrap(), STDOUT);
}
