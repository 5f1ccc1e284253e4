//! Vectors and exceptions that are changed in a named way, to see that the change is found and nothing else.
//!
//! A file of changes has one after another, with an empty line between them, each line with its own first word:
//! `#` what is changed, `v` the title of the vector, `-` its lines that go, `+` those that take their place, `x-` and `x+` titles that are no longer excepted
//! and that are, and `?` how that begins which is found.

use crate::said::Heard;
use crate::tally::Tally;
use crate::vectors::found;

/// A change; lines end with a line feed.
#[derive(Default)]
struct Change {
    what: String,
    title: String,
    old: String,
    new: String,
    no_exceptions: String,
    exceptions: String,
    found: String,
}

/// Makes each change of a file, one at a time, in the vectors and the exceptions.
pub fn changed(vectors: &str, exceptions: &str, changes: &str, tally: &mut Tally) {
    let mut heard = Heard::default();
    for text in changes.trim_end().split("\n\n") {
        let change = read(text);
        let (vectors, exceptions) = (replaced(vectors, &change), excepted(exceptions, &change));
        let wrong = found(&vectors, &exceptions, &mut heard);
        let wrong: Vec<String> = wrong.into_iter().flatten().collect();
        let alone = wrong.len() == 1 && wrong[0].starts_with(&change.found);
        tally.expect(alone, || format!("{}: found: {wrong:?}", change.what));
    }
}

/// Reads one change.
fn read(text: &str) -> Change {
    let mut change = Change::default();
    for line in text.lines() {
        let (word, rest) = line.split_once(' ').unwrap_or((line, ""));
        let (part, end) = match word {
            "#" => (&mut change.what, ""),
            "v" => (&mut change.title, ""),
            "-" => (&mut change.old, "\n"),
            "+" => (&mut change.new, "\n"),
            "x-" => (&mut change.no_exceptions, "\n"),
            "x+" => (&mut change.exceptions, "\n"),
            "?" => (&mut change.found, ""),
            _ => panic!("no line of a change: {line}"),
        };
        *part += &format!("{rest}{end}");
    }
    assert!(!change.found.is_empty(), "nothing is to be found: {text}");
    change
}

/// The vectors, with the lines of one of them replaced.
fn replaced(vectors: &str, change: &Change) -> String {
    let Change { old, new, .. } = change;
    if old.is_empty() {
        return vectors.to_string();
    }
    let start = vectors.find(&format!("v {}\n", change.title));
    let (before, rest) = vectors.split_at(start.expect("the title of a vector"));
    let end = rest.find("\nv ").map_or(rest.len(), |end| end + 1);
    let (vector, after) = rest.split_at(end);
    assert_eq!(vector.matches(old).count(), 1, "{}", change.what);
    [before, &vector.replace(old, new), after].concat()
}

/// The exceptions, without some and with others.
fn excepted(exceptions: &str, change: &Change) -> String {
    let gone = &change.no_exceptions;
    let kept = exceptions.replace(gone, "");
    assert_eq!(kept == exceptions, gone.is_empty(), "{}", change.what);
    kept + &change.exceptions
}
