//! Refusals as numbers and as text.

use std::{collections::BTreeSet, error::Error};
use togbefulo::Refusal;

/// Document 01's, and no others.
#[test]
fn numbers() {
    let numbers = Refusal::ALL.map(Refusal::number);
    assert_eq!(numbers, [1, 2, 3, 4, 5, 10, 11, 12, 13, 20, 21, 22, 23]);
    for number in (0..1_000).chain([u32::MAX - 1, u32::MAX]) {
        let refusal = Refusal::of_number(number);
        assert_eq!(refusal.is_some(), numbers.contains(&number));
        assert!(refusal.is_none_or(|refusal| refusal.number() == number));
    }
}

/// Each has a text of its own, which begins with its number, and is an error as others are.
#[test]
fn texts() {
    let texts = Refusal::ALL.map(|refusal| {
        let boxed: Box<dyn Error + Send + Sync> = refusal.into();
        let text = boxed.to_string();
        let start = format!("refusal {}: ", refusal.number());
        text.strip_prefix(&start).expect(&text).to_owned()
    });
    assert_eq!(BTreeSet::from(texts).len(), Refusal::ALL.len());
}
