//! Rehearsals by hand.
use second_order::history::{History, Printed, read};
use second_order::printed::check;
use second_order::report::report;
use second_order::search::{Found, STATES, search};

/// A volume 1 of 100 sectors under token 1, at house 0.
const MADE: &str = "houses 3 65536\ncall 1 0 make 100\nanswer 1 number 1\ncall 2 0 attach 1\nanswer 2 token 1 size 100\n";

fn of(lines: &str) -> History {
    let mut all = read(&format!("{MADE}{lines}"));
    assert_eq!(all.len(), 1);
    all.pop().unwrap()
}

fn search_of(lines: &str) -> Found {
    let history = of(lines);
    assert_eq!(history.faults, []);
    let found = search(&history, STATES);
    if let Found::Order(order) = &found {
        assert_eq!(check(&history, order), Ok(()));
    }
    found
}

fn is_found(lines: &str) {
    assert!(matches!(search_of(lines), Found::Order(_)), "{lines}");
}

fn is_none(lines: &str) {
    assert_eq!(search_of(lines), Found::None, "{lines}");
}

fn fault_of(lines: &str) -> String {
    let history = of(lines);
    assert_eq!(search(&history, STATES), Found::None);
    assert!(!report(&history).is_right());
    history.faults[0].to_string()
}

fn check_of(lines: &str, order: &[u64]) -> Result<(), String> {
    check(&of(lines), order)
}

const WRITTEN: &str = "call 3 1 write 1 1 5 07\nanswer 3 yes\n";

#[test]
fn what_was_written_is_read() {
    is_found(&format!("{WRITTEN}call 4 2 read 1 1 5\nanswer 4 sector 07\n"));
    is_found("call 4 2 read 1 1 5\nanswer 4 sector 00\n");
    // other lines are passed over
    is_found("line 3: not played yet\ncall 4 2 read 1 1 5\n\nanswer 4 sector 00\n");
}

#[test]
fn a_read_beside_a_write_has_either() {
    for byte in ["00", "07"] {
        is_found(&format!("call 3 1 write 1 1 5 07\ncall 4 2 read 1 1 5\nanswer 4 sector {byte}\nanswer 3 yes\n"));
    }
    is_none("call 3 1 write 1 1 5 07\ncall 4 2 read 1 1 5\nanswer 4 sector 08\nanswer 3 yes\n");
}

#[test]
fn a_stale_read_has_no_order() {
    is_none(&format!("{WRITTEN}call 4 2 read 1 1 5\nanswer 4 sector 00\n"));
    // one read has seen the write, a later one not
    let reads = "call 4 2 read 1 1 5\nanswer 4 sector 07\ncall 5 0 read 1 1 5\nanswer 5 sector 00\nanswer 3 yes\n";
    is_none(&format!("call 3 1 write 1 1 5 07\n{reads}"));
    // unless somebody wrote zeros again
    is_found(&format!("call 3 1 write 1 1 5 07\ncall 6 1 write 1 1 5 00\n{reads}"));
}

#[test]
fn reads_agree_on_the_order_of_writes() {
    let writes = "call 3 0 write 1 1 5 07\ncall 4 1 write 1 1 5 08\n";
    let reads = |first: &str, second: &str| {
        let of = |k: u64, byte: &str| format!("call {k} 2 read 1 1 5\nanswer {k} sector {byte}\n");
        format!("{writes}{}{}{}answer 3 yes\nanswer 4 yes\n", of(5, first), of(6, second), of(7, first))
    };
    is_none(&reads("07", "08"));
    is_found(&reads("08", "08"));
}

#[test]
fn a_write_under_an_old_token_is_refused() {
    let attached = "call 3 1 write 1 1 5 07\ncall 4 2 attach 1\nanswer 4 token 2 size 100\n";
    is_found(&format!("{attached}answer 3 refused 4\n"));
    is_found(&format!("{attached}answer 3 yes\n"));
    // done before the attaching, so it is read
    is_found(&format!("{attached}answer 3 yes\ncall 5 2 read 1 2 5\nanswer 5 sector 07\n"));
    is_none(&format!("{attached}answer 3 yes\ncall 5 2 read 1 2 5\nanswer 5 sector 00\n"));
    // taken late: the new owner read zeros first, and then what the old one wrote
    let late = "call 5 2 read 1 2 5\nanswer 5 sector 00\ncall 6 2 read 1 2 5\nanswer 6 sector 07\n";
    is_none(&format!("{attached}{late}"));
    is_none(&format!("{attached}{late}answer 3 yes\n"));
    is_none(&format!("{attached}call 5 1 write 1 1 6 07\nanswer 5 yes\n"));
}

#[test]
fn a_token_is_given_once() {
    let calls = "call 3 1 attach 1\ncall 4 2 attach 1\n";
    is_found(&format!("{calls}answer 4 token 2 size 100\nanswer 3 token 3 size 100\n"));
    is_none(&format!("{calls}answer 4 token 2 size 100\nanswer 3 token 2 size 100\n"));
    is_none("call 3 1 attach 1\nanswer 3 token 3 size 100\n");
    is_none("call 3 1 make 5\nanswer 3 number 1\n");
}

#[test]
fn what_is_not_there_or_full() {
    is_found("call 3 1 drop 1 1\nanswer 3 yes\ncall 4 0 read 1 1 0\nanswer 4 refused 2\n");
    is_none("call 3 1 drop 1 1\nanswer 3 yes\ncall 4 0 read 1 1 0\nanswer 4 refused 4\n");
    is_none("call 3 1 write 1 1 0 01\nanswer 3 full\n");
    is_found("call 3 1 read 1 1 100\nanswer 3 refused 1\ncall 4 0 picture 1 1\nanswer 4 refused 12\n");
    // room for one volume and one sector
    let small = "houses 3 2308\ncall 1 0 make 9\nanswer 1 number 1\ncall 2 0 attach 1\nanswer 2 token 1 size 9\n";
    let writes = "call 3 0 write 1 1 0 01\ncall 4 1 write 1 1 1 01\nanswer 4 yes\n";
    for (answer, found) in [("full", true), ("yes", false)] {
        let history = read(&format!("{small}{writes}answer 3 {answer}\n")).pop().unwrap();
        assert_eq!(matches!(search(&history, STATES), Found::Order(_)), found, "{answer}");
    }
}

/// Whether an order is found where pictures are built.
fn is_pictured(text: &str) -> bool {
    let mut history = read(text).pop().unwrap();
    history.pictured = true;
    assert_eq!(history.faults, []);
    matches!(search(&history, STATES), Found::Order(_))
}

#[test]
fn a_copy_shows_its_picture() {
    let made = format!("{MADE}{WRITTEN}call 4 0 picture 1 1\nanswer 4 number 2\ncall 5 0 write 1 1 5 08\nanswer 5 yes\n");
    let copied = "call 6 0 copy 2\nanswer 6 number 3\ncall 7 0 attach 3\nanswer 7 token 1 size 100\ncall 8 0 read 3 1 5\n";
    assert!(is_pictured(&format!("{made}{copied}answer 8 sector 07\n")));
    assert!(!is_pictured(&format!("{made}{copied}answer 8 sector 08\n")));
    // what the picture had is written once more, later
    let writes = "call 10 0 write 3 1 5 09\nanswer 10 yes\ncall 13 0 write 3 1 6 09\nanswer 13 yes\ncall 11 0 read 3 1 5\nanswer 11 sector 09\ncall 12 0 read 3 1 5\nanswer 12 sector 07\nanswer 9 yes\n";
    assert!(is_pictured(&format!("{made}{copied}call 9 1 write 3 1 5 07\nanswer 8 sector 07\n{writes}")));
}

#[test]
fn a_copy_has_room_once_a_write_made_some() {
    let made = MADE.replace("65536", &(2048 + 4 * 197).to_string());
    let written = format!("{made}{WRITTEN}call 4 1 write 1 1 6 07\nanswer 4 yes\ncall 5 0 picture 1 1\nanswer 5 number 2\n");
    let beside = "call 6 0 copy 2\ncall 7 1 write 1 1 5 00\n";
    assert!(is_pictured(&format!("{written}{beside}answer 6 number 3\nanswer 7 yes\n")));
    assert!(is_pictured(&format!("{written}{beside}answer 6 full\nanswer 7 yes\n")));
    assert!(!is_pictured(&format!("{written}call 6 0 copy 2\nanswer 6 number 3\n")));
}

#[test]
fn a_call_at_a_house_that_fell_is_done_or_not() {
    let fell = "call 3 1 write 1 1 5 07\nfell 1\n";
    for byte in ["00", "07"] {
        is_found(&format!("{fell}call 4 2 read 1 1 5\nanswer 4 sector {byte}\n"));
    }
    is_found(&format!("{fell}call 4 2 read 1 1 5\nanswer 4 sector 00\ncall 5 0 read 1 1 5\nanswer 5 sector 07\n"));
    is_none(&format!("{fell}call 4 2 read 1 1 5\nanswer 4 sector 07\ncall 5 0 read 1 1 5\nanswer 5 sector 00\n"));
    // its moment may be printed, or none
    let read = format!("{fell}call 4 2 read 1 1 5\nanswer 4 sector 07\n");
    assert_eq!(check_of(&read, &[1, 2, 3, 4]), Ok(()));
    assert_eq!(check_of(&read, &[1, 2, 4]), Err("call 4 was answered sector 07, and one place answers sector 00".to_string()));
}

#[test]
fn what_cannot_be_seen() {
    assert_eq!(fault_of("answer 3 yes\ncall 3 0 sync 1 1\n"), "line 6: call 3 is answered before it is made");
    assert_eq!(fault_of("call 3 0 sync 1 1\nanswer 3 yes\nanswer 3 yes\n"), "line 8: call 3 is answered twice");
    assert_eq!(fault_of("call 2 0 sync 1 1\n"), "line 6: call 2 is made twice");
    assert_eq!(fault_of("call 3 3 sync 1 1\n"), "line 6: there is no house 3");
    assert_eq!(fault_of("fell 1\ncall 3 1 sync 1 1\n"), "line 7: call 3 is made at house 1, which fell");
    let risen = "call 3 1 sync 1 1\nfell 1\nrose 1\nanswer 3 yes\n";
    assert_eq!(fault_of(risen), "line 9: call 3 is answered at house 1, which fell since it was made");
    assert_eq!(fault_of("call 3 1 erase 1\n"), "line 6: not understood");
    assert_eq!(fault_of("call 3 1 sync 1 1\nanswer 3 refused 11\n"), "line 7: call 3 is refused as one too many, and 0 wait");
}

#[test]
fn one_too_many_has_no_moment() {
    let waiting: String = (3..11).map(|k| format!("call {k} 1 sync 1 1\n")).collect();
    let busy = format!("{waiting}call 11 1 write 1 1 5 07\nanswer 11 refused 11\n");
    is_found(&busy);
    is_none(&format!("{busy}call 12 2 read 1 1 5\nanswer 12 sector 07\n"));
    assert_eq!(check_of(&busy, &[1, 2, 11]), Err("call 11 was refused as one too many and has a moment".to_string()));
    assert_eq!(check_of(&busy, &[1, 2]), Ok(()));
}

#[test]
fn printed_orders() {
    let lines = format!("{WRITTEN}call 4 2 read 1 1 5\nanswer 4 sector 07\n");
    assert_eq!(check_of(&lines, &[1, 2, 3, 4]), Ok(()));
    assert_eq!(check_of(&lines, &[1, 2, 3]), Err("call 4 is answered and has no moment".to_string()));
    assert_eq!(check_of(&lines, &[1, 2, 3, 4, 4]), Err("call 4 has two moments".to_string()));
    assert_eq!(check_of(&lines, &[1, 2, 3, 4, 5]), Err("no call 5 was made".to_string()));
    let late = Err("call 3 was answered before call 4 was made, and is done after it".to_string());
    assert_eq!(check_of(&format!("{WRITTEN}call 4 2 read 1 1 5\nanswer 4 sector 00\n"), &[1, 2, 4, 3]), late);
}

#[test]
fn reports() {
    let lines = format!("{WRITTEN}call 4 2 read 1 1 5\nanswer 4 sector 07\n");
    let said = |end: &str| {
        let report = report(&of(&format!("{lines}{end}")));
        (report.is_right(), report.agrees(), report.to_string())
    };
    assert_eq!(said("order 1 2 3 4\ncuts 0\n"), (true, true, "printed order: right\norder found\nboth agree\n".to_string()));
    assert_eq!(said("no order\n"), (false, false, "printed order: none is printed\norder found\nthey differ\n".to_string()));
    for (end, wrong) in [("order 1 2 4 3\ncuts 0\n", "call 3 was answered before"), ("order 1 2 3 4\ncuts 1\n", "1 cuts"), ("order 1 2 3 4\n", "no number of cuts"), ("", "no end")] {
        let (right, agrees, text) = said(end);
        assert!(!right && !agrees && text.starts_with(&format!("printed order: {wrong}")), "{text}");
    }
    let stale = report(&of(&format!("{WRITTEN}call 4 2 read 1 1 5\nanswer 4 sector 00\nno order\n")));
    assert!(stale.agrees() && !stale.is_right());
    assert_eq!(of(&format!("{lines}order 1 cut 1 2\ncuts 1\n")).faults[0].to_string(), "line 10: not understood");
}

#[test]
fn several_rehearsals() {
    let all = read(&format!("line 1: not understood\n{MADE}order 1 2\ncuts 0\nhouses 5 70000\n{}no order\n", MADE.split_once('\n').unwrap().1));
    let ends: Vec<_> = all.iter().map(|h| (h.houses, h.size, h.printed.clone())).collect();
    assert_eq!(ends, [(3, 65536, Some(Printed::Order(vec![1, 2]))), (5, 70000, Some(Printed::NoOrder))]);
    assert!(read("line 1: not understood\n").is_empty());
}
