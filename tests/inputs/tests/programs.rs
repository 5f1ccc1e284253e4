//! The program `vectors` as it is started, and the questions that are fixed.

use inputs::drawn::{COUNTED_SEEDS, FIXED_SEEDS, OF_A_SEED};
use inputs::made::made;
use inputs::questions::{counted, fixed, of_made, of_seed, Asked};
use inputs::writer::{from_hex, to_hex};
use std::process::Command;

/// The lines that `vectors` prints.
fn vectors(seed: &str, count: &str) -> Vec<String> {
    let output = Command::new(env!("CARGO_BIN_EXE_vectors"))
        .args([seed, count])
        .output()
        .expect("the program starts");
    assert!(output.status.success());
    let text = String::from_utf8(output.stdout).expect("plain text");
    text.lines().map(str::to_string).collect()
}

#[test]
fn vectors_have_their_form_and_are_the_same_for_the_same_seed() {
    let lines = vectors("1", "300");
    assert_eq!(lines, vectors("1", "300"));
    assert_ne!(lines, vectors("2", "300"));
    let mut inputs = 0;
    for line in &lines {
        let fields: Vec<&str> = line.split('|').collect();
        let refused = fields[fields.len() - 1].starts_with("refused ");
        let expected = match (fields[0], refused) {
            ("reading", false) => 6,
            ("accepted", false) => 3,
            ("single", _) => 6,
            ("run", true) => 5,
            ("run", false) => 7,
            ("listing", _) => 4,
            ("figures", true) => 6,
            ("figures", false) => 13,
            ("plain", true) => 5,
            ("plain", false) => 6,
            ("part", true) => 8,
            ("part", false) => 9,
            other => panic!("{other:?}"),
        };
        assert_eq!(fields.len(), expected, "{line}");
        assert_eq!(to_hex(&from_hex(fields[1])), fields[1]);
        assert_eq!(to_hex(&from_hex(fields[2])), fields[2]);
        inputs += usize::from(fields[0] == "reading" || fields[0] == "accepted");
    }
    assert_eq!(inputs, 300);
}

#[test]
fn the_fixed_questions_are_those_of_the_made_inputs_and_of_the_first_seeds() {
    let same = |one: &[Asked], other: &[Asked]| {
        let alike = |(a, b): (&Asked, &Asked)| a.files == b.files && a.questions == b.questions;
        one.len() == other.len() && one.iter().zip(other).all(alike)
    };
    let (fixed, made) = (fixed(), made().len());
    assert_eq!(fixed.len(), made + FIXED_SEEDS as usize * OF_A_SEED);
    assert!(same(&fixed[..made], &of_made()));
    assert!(same(&fixed[made..made + OF_A_SEED], &of_seed(1)));
    assert!(same(
        &fixed[fixed.len() - OF_A_SEED..],
        &of_seed(FIXED_SEEDS)
    ));
    let first = made + COUNTED_SEEDS as usize * OF_A_SEED;
    assert!(same(&fixed[..first], &counted()));
    assert!(!same(&of_seed(7), &of_seed(8)));
    assert!(fixed.iter().all(|asked| asked.questions.len() >= 9));
}
