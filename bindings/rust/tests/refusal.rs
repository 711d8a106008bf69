//! The refusals are those of docs/refusals.txt.
use laxombiit::Refusal;

/// C's own, for a word that is none: this crate has no such words.
const UNKNOWN_WORD: u32 = 100;

/// Number, name and sentence of each.
fn told() -> Vec<(u32, &'static str, &'static str)> {
    let file = include_str!("../../../docs/refusals.txt");
    let one = |line: &'static str| {
        let (number, named) = line.split_once(' ').unwrap();
        let (name, text) = named.split_once(": ").unwrap();
        (number.parse().unwrap(), name, text)
    };
    file.lines().map(one).filter(|(number, ..)| *number != UNKNOWN_WORD).collect()
}

#[test]
fn each_says_its_sentence() {
    for (number, name, text) in told() {
        let refusal = Refusal::try_from(number).unwrap();
        assert_eq!(refusal.number(), number);
        assert_eq!(format!("{refusal:?}"), name);
        assert_eq!(refusal.text(), text);
        assert_eq!(refusal.to_string(), format!("refused {number}: {text}"));
    }
}

#[test]
fn no_other_number_is_one() {
    let numbers: Vec<u32> = told().iter().map(|(number, ..)| *number).collect();
    for number in (0..=200).chain([u32::MAX]).filter(|number| !numbers.contains(number)) {
        let none = Refusal::try_from(number).unwrap_err();
        assert_eq!(none.to_string(), format!("no refusal has the number {number}"));
    }
}
