//! The program `second` as it is started.

#[path = "common/example.rs"]
mod example;

use example::shift_example;
use inputs::answers::listed;
use inputs::writer::table;
use std::path::PathBuf;
use std::process::Command;

/// What `second` prints for files of these bytes; no bytes for the book means that there is no such file.
fn printed(name: &str, case: &[u8], book: Option<&[u8]>) -> String {
    let directory = std::env::temp_dir().join(format!("second-{}-{name}", std::process::id()));
    std::fs::create_dir_all(&directory).expect("a directory for the files");
    let (case_file, book_file): (PathBuf, PathBuf) =
        (directory.join("case"), directory.join("types.book"));
    std::fs::write(&case_file, case).expect("a case file");
    if let Some(book) = book {
        std::fs::write(&book_file, book).expect("a book file");
    }
    let output = Command::new(env!("CARGO_BIN_EXE_second"))
        .args([case_file, book_file])
        .output()
        .expect("the program starts");
    std::fs::remove_dir_all(&directory).expect("the files go");
    assert!(output.status.success() && output.stderr.is_empty());
    String::from_utf8(output.stdout).expect("plain text")
}

#[test]
fn second_prints_the_listing_with_and_without_a_book() {
    let case = shift_example();
    let expected = listed(&case, &[]).expect("accepted");
    assert_eq!(printed("none", &case, None), expected);
    assert_eq!(printed("empty", &case, Some(&[])), expected);
    let without_table = &case[..52];
    assert_eq!(
        printed("no-table", without_table, None),
        "refused 11 0 22\n"
    );
    assert_eq!(printed("book", without_table, Some(&case[52..])), expected);
}

#[test]
fn second_prints_the_refused_line() {
    let case = shift_example();
    assert_eq!(printed("nothing", &[], None), "refused 5 0 0\n");
    let bad_book = [table(3, &[(0, 100)]), vec![5]].concat();
    assert_eq!(
        printed("bad-book", &case, Some(&bad_book)),
        "refused 1 1 6\n"
    );
}

#[test]
fn second_hands_on_4_096_bytes_at_most() {
    let case = shift_example();
    let long = [case, vec![7; 10_000]].concat();
    assert_eq!(printed("long", &long, None), "refused 2 0 60\n");
}
