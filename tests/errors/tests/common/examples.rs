//! The examples of examples/, and what the program with an error prints of them.

use inputs::answers::listed;
use inputs::writer::from_hex;
use std::fs;
use std::path::Path;

/// The bytes of a file of examples/.
pub fn example(name: &str) -> Vec<u8> {
    let folder = Path::new(env!("CARGO_MANIFEST_DIR")).join("../../examples");
    fs::read(folder.join(name)).expect("a file of examples/")
}

/// The case of an example, which is its commented hex; and its listing is what the second program prints.
pub fn case_of(name: &str) -> Vec<u8> {
    let case = example(&format!("{name}.case"));
    let hex = String::from_utf8(example(&format!("{name}.hex"))).expect("plain text");
    let fields: Vec<&str> = hex.lines().filter(|line| !line.starts_with('#')).collect();
    assert_eq!(from_hex(&fields.concat()), case);
    let printed = listed(&case, &[]).expect("accepted");
    assert_eq!(printed.as_bytes(), example(&format!("{name}.listing")));
    case
}

/// The listing of a case by the program with an error.
macro_rules! listing_with {
    ($error:ident, $case:expr) => {{
        let plan = errors::$error::plan::Plan::read(&$case, &[]).expect("accepted");
        let last = plan.head.last_minute;
        let joint = errors::$error::joint::run(&plan, last).expect("room enough");
        errors::$error::listing::listing(&plan, &joint)
    }};
}
pub(crate) use listing_with;

/// Asserts that an example's listing with an error is another one, and has these lines of a train.
pub fn differs(name: &str, wrong: &[u8], train: usize, lines: &[&str]) {
    assert_ne!(wrong, example(&format!("{name}.listing")));
    let text = String::from_utf8(wrong.to_vec()).expect("plain text");
    let of_train = format!("{train} ");
    let of_train: Vec<&str> = text
        .lines()
        .filter(|line| line.starts_with(&of_train))
        .collect();
    assert_eq!(of_train, lines);
}
