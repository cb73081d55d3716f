//! The cards of docs/CASES.md: each clause's cards break exactly its rule, and the list is long enough.

use second::cases::names::NAMES;
use second::cases::{printed, Case};
use second::check;

#[test]
fn each_clause_breaks_its_own_rule() {
    for case in Case::all() {
        let rule = usize::from(check(&case.card()).rule);
        assert_eq!(rule, case.rule, "{} {}", case.name(), case.i);
    }
}

#[test]
fn enough_cards_and_ten_for_each_clause() {
    let count = |keep: &dyn Fn(&Case) -> bool| Case::all().filter(|case| keep(case)).count();
    assert!(count(&|case| case.rule > 0) >= 2000);
    let in_order = ["bare", "in-order"];
    assert!(count(&|case| case.rule == 0 && !in_order.contains(&case.name())) >= 500);
    for (rule, clauses) in NAMES.iter().enumerate() {
        for clause in 0..clauses.len() {
            assert!(count(&|case| case.key() == (rule, clause)) >= 10);
        }
    }
}

#[test]
fn no_two_cards_with_a_block_are_the_same() {
    let cards = Case::all().map(Case::card);
    let mut cards: Vec<_> = cards.filter(|card| card.len() > 87).collect();
    let all = cards.len();
    cards.sort_unstable();
    cards.dedup();
    assert_eq!(cards.len(), all);
}

#[test]
fn the_proved_program_is_to_write_this() {
    let path = concat!(env!("CARGO_MANIFEST_DIR"), "/../crates/cases/stdout");
    let stdout = std::fs::read_to_string(path).expect("crates/cases/stdout");
    assert!(
        stdout == printed(),
        "crates/cases/stdout is not what this writes"
    );
}
