//! The vectors of a stage of 02: questions, and the whole answers of a third program that was written apart. Each is put to the exports.
//!
//! A file of vectors is text, one thing a line; the first character says what stands in the line, and a space follows it.
//! `v COMMAND NAME`: a vector starts, and ends where the next one does. Its title, command and name, is its own.
//! `i HEX`: an input, the case and then the book; `-` is the empty file.
//! `a N N ..`: the arguments, decimal; of `run` and `plain` the stop minute, of `single` the train and the choice, of `figures` the train and the limit.
//! `o TEXT`: a line of the answer.
//! `# TEXT`: a remark.
//!
//! A file of exceptions has the titles, one a line, of vectors that are held to be wrong, and remarks, which say why. They have to be answered otherwise.

use crate::said::Heard;
use inputs::generator::Files;
use inputs::questions::Call;
use std::collections::BTreeSet;

/// A question, and its answer: lines that each end with a line feed.
struct Vector {
    title: String,
    files: Files,
    call: Call,
    answer: String,
}

/// A vector of which some lines have been read.
struct Draft {
    title: String,
    inputs: Vec<Vec<u8>>,
    arguments: Vec<usize>,
    answer: String,
}

/// Puts each vector to the exports, unless its question was heard. For each, and last for the exceptions together, it gives what is wrong, if anything is; of files that are malformed
/// only that.
pub fn found(vectors: &str, exceptions: &str, heard: &mut Heard) -> Vec<Option<String>> {
    let (vectors, exceptions) = match (read(vectors), read_exceptions(exceptions)) {
        (Ok(vectors), Ok(exceptions)) => (vectors, exceptions),
        (Err(wrong), _) | (_, Err(wrong)) => return vec![Some(wrong)],
    };
    let excepted = |vector: &Vector| exceptions.contains(&vector.title);
    let wrong = |vector| wrong_with(vector, excepted(vector), heard);
    let mut found: Vec<Option<String>> = vectors.iter().map(wrong).collect();
    let titles: BTreeSet<&String> = vectors.iter().map(|vector| &vector.title).collect();
    let unknown = exceptions.iter().find(|title| !titles.contains(title));
    found.push(unknown.map(|title| format!("{title}: excepted, and there is no such vector")));
    found
}

/// What is wrong with a vector: that another answer is given, or that it is an exception for no reason.
fn wrong_with(vector: &Vector, excepted: bool, heard: &mut Heard) -> Option<String> {
    let Vector { title, answer, .. } = vector;
    let said = heard.said(&vector.files, &vector.call);
    match excepted {
        false => differs(title, answer, said),
        true if said == *answer => Some(format!("{title}: excepted, and it holds")),
        true => None,
    }
}

/// The first line in which an answer differs from what is expected.
fn differs(title: &str, expected: &str, said: &str) -> Option<String> {
    if expected == said {
        return None;
    }
    let lines = |text: &str| -> Vec<String> { text.split('\n').map(str::to_string).collect() };
    let (expected, said) = (lines(expected), lines(said));
    let same = expected.iter().zip(&said).take_while(|(a, b)| a == b);
    let at = same.count();
    let (number, none) = (at + 1, String::new());
    let expected = expected.get(at).unwrap_or(&none);
    let said = said.get(at).unwrap_or(&none);
    Some(format!(
        "{title}: line {number} is `{said}` where `{expected}` is expected"
    ))
}

/// Reads the vectors of a file, or says what is wrong with the first that is malformed.
fn read(text: &str) -> Result<Vec<Vector>, String> {
    let mut drafts: Vec<Draft> = Vec::new();
    for line in lines(text)? {
        let title = drafts.last().map(|draft| draft.title.clone());
        let malformed = || format!("{}: malformed: `{line}`", title.unwrap_or_default());
        take(&mut drafts, line).ok_or_else(malformed)?;
    }
    let mut titles = BTreeSet::new();
    let mut vectors = Vec::new();
    for draft in drafts {
        let title = draft.title.clone();
        if !titles.insert(title.clone()) {
            return Err(format!("{title}: there are two of this title"));
        }
        vectors.push(vector(draft).ok_or(format!("{title}: no such question"))?);
    }
    Ok(vectors)
}

/// The lines of a file; each ends with a line feed.
fn lines(text: &str) -> Result<std::str::Split<'_, char>, String> {
    let whole = text.strip_suffix('\n');
    let whole = whole.ok_or("the last line has no line feed")?;
    Ok(whole.split('\n'))
}

/// Adds one line to what has been read; none if it is malformed.
fn take(drafts: &mut Vec<Draft>, line: &str) -> Option<()> {
    let (letter, rest) = line.split_once(' ')?;
    match (letter, drafts.last_mut()) {
        ("#", _) => {}
        ("v", _) => drafts.push(Draft {
            title: title(rest)?,
            inputs: Vec::new(),
            arguments: Vec::new(),
            answer: String::new(),
        }),
        ("i", Some(draft)) => draft.inputs.push(bytes(rest)?),
        ("a", Some(draft)) if draft.arguments.is_empty() => {
            let numbers = rest.split(' ').map(|number| number.parse().ok());
            draft.arguments = numbers.collect::<Option<Vec<usize>>>()?;
        }
        ("o", Some(draft)) => draft.answer += &format!("{rest}\n"),
        _ => return None,
    }
    Some(())
}

/// A title: two words, the command and the name.
fn title(text: &str) -> Option<String> {
    let words: Vec<&str> = text.split(' ').collect();
    let two = words.len() == 2 && words.iter().all(|word| !word.is_empty());
    two.then(|| text.to_string())
}

/// The bytes of hexadecimal text, two digits each.
fn bytes(text: &str) -> Option<Vec<u8>> {
    let digit = |letter: char| letter.to_digit(16).map(|digit| digit as u8);
    let digits: Option<Vec<u8>> = match text {
        "-" => Some(Vec::new()),
        "" => None,
        text => text.chars().map(digit).collect(),
    };
    let digits = digits.filter(|digits| digits.len() % 2 == 0)?;
    Some(digits.chunks(2).map(|two| two[0] * 16 + two[1]).collect())
}

/// The vector of all its lines; none if there is no such command with such arguments, or another number of inputs.
fn vector(draft: Draft) -> Option<Vector> {
    let (command, _) = draft.title.split_once(' ')?;
    let call = match (command, draft.arguments.as_slice()) {
        ("list", []) => Call::Listing,
        ("run", [stop]) => Call::Run { stop: *stop },
        ("single", [train, choice @ ..]) => {
            let indices = choice.iter().map(|index| u8::try_from(*index).ok());
            Call::Single {
                choice: indices.collect::<Option<Vec<u8>>>()?,
                train: *train,
            }
        }
        ("figures", [train, limit]) => Call::Figures {
            train: *train,
            limit: u16::try_from(*limit).ok()?,
        },
        ("plain", [stop]) => Call::Plain { stop: *stop },
        _ => return None,
    };
    let [case, book] = <[Vec<u8>; 2]>::try_from(draft.inputs).ok()?;
    Some(Vector {
        title: draft.title,
        files: Files { case, book },
        call,
        answer: draft.answer,
    })
}

/// Reads the titles of exceptions, or says what is wrong with the first line that is malformed.
fn read_exceptions(text: &str) -> Result<BTreeSet<String>, String> {
    let mut titles = BTreeSet::new();
    for line in lines(text)?.filter(|line| !line.starts_with("# ")) {
        let title = title(line).ok_or(format!("exceptions: malformed: `{line}`"))?;
        if !titles.insert(title) {
            return Err(format!("{line}: excepted twice"));
        }
    }
    Ok(titles)
}
