//! The program `definitions FOLDER`: reads the second program's vectors from standard input and writes the crates `vectors_even` and `vectors_odd` into
//! FOLDER/crates, whose theorems say that the definitions, computed on the same bytes, give the same answers. The inputs go into them by turns, so that
//! the prover computes two at a time. There is one theorem a vector and ten inputs a file, so that a difference is named by its file and line.

use std::fmt::Write as _;
use std::fs;
use std::io::{self, BufRead};
use std::path::Path;
use std::process::ExitCode;

/// The definitions that computing has to see through, by the module that declares them.
const OPENED: [(&str, &str); 8] = [
    ("Files", "head_of, track_of, stop_of, train_of, pair_of, table_of, couple_of, kind_of, known, in_place, lengths, most, how_many, head_rules, station_rules, unknown, leads, track_rules, path_broken, times_broken, train_rules, table_rules, track_at, coupled, unlike, couple_rules, body_rules, field_rules, more, end_rules, read_field, read_fields, read, tables_of, case_of, files"),
    ("Turns", "same, way, ahead, last_station, elements, capacity, names, paired, ended, asks, sooner, due_again, leaving, entered, arriving, goes_first, next, turns, visit, minute, minutes, run_from"),
    ("Single", "waits, first_marks, trains_on, partner_held, enters, serve_train, single_rules, single as single_state, arrival"),
    ("Joint", "common, without, inside, apart, outsides, choices_in, whole, choices, weight_of, weight, total, first_list, carry, meets, meets_across, across, pieces, serve_entry, check_list, joint_rules, joint, weight_at"),
    ("Listing", "decimal, not_arrived_of, train_lines, listing as listing_of"),
    ("Figures", "plan, on_time_of, late, double, punctuality, shares, lateness_sum, lateness_weight, figures"),
    ("Calls", "choice_broken, no_such_train, single_run, stopped_run, whole_run, train_run, set_image, cover_image, row_image, text_of"),
    ("Plain", "arrival_by, adds, added_by, plain_run, part_run"),
];

/// What the doubles' computing has to see through besides.
const FLOATS: &str = "div, of_int, round, size, span, climb, units, odd, to_bits";

const ASKED: &str = "reading, single, run, listing, punctual, plain, part";

/// The crates that are written, the inputs by turns.
const CRATES: [&str; 2] = ["vectors_even", "vectors_odd"];

/// One question with its expected answer, both as antt text.
struct Statement {
    question: String,
    answer: String,
}

fn main() -> ExitCode {
    let Some(folder) = std::env::args().nth(1) else {
        eprintln!("use: definitions FOLDER");
        return ExitCode::from(2);
    };
    match weave(Path::new(&folder)) {
        Ok(vectors) => {
            println!("{vectors}");
            ExitCode::SUCCESS
        }
        Err(error) => {
            eprintln!("definitions: {error}");
            ExitCode::FAILURE
        }
    }
}

/// Writes the crates and says how many vectors they have.
fn weave(folder: &Path) -> io::Result<usize> {
    let inputs = read_inputs()?;
    for (turn, name) in CRATES.iter().enumerate() {
        let part: Vec<&Vec<Statement>> = inputs.iter().skip(turn).step_by(CRATES.len()).collect();
        weave_crate(&folder.join("crates").join(name), name, &part)?;
    }
    Ok(inputs.iter().map(Vec::len).sum())
}

/// Writes one crate.
fn weave_crate(folder: &Path, of: &str, inputs: &[&Vec<Statement>]) -> io::Result<()> {
    let specs = folder.join("specs");
    fs::create_dir_all(&specs)?;
    fs::create_dir_all(folder.join("src"))?;
    fs::write(folder.join("src/lib.rt"), "")?;
    fs::write(specs.join("Asked.antt"), include_str!("asked.txt"))?;
    let mut modules = String::from("pub mod Asked\n");
    for (number, inputs) in inputs.chunks(10).enumerate() {
        let name = format!("Inputs{number}");
        writeln!(modules, "pub mod {name}").expect("a string takes all");
        fs::write(specs.join(format!("{name}.antt")), module_text(of, inputs))?;
    }
    fs::write(specs.join("Lib.antt"), modules)
}

/// Reads the vectors: an input starts with its `reading` or `accepted` line.
fn read_inputs() -> io::Result<Vec<Vec<Statement>>> {
    let mut inputs: Vec<Vec<Statement>> = Vec::new();
    for line in io::stdin().lock().lines() {
        let line = line?;
        let fields: Vec<&str> = line.split('|').collect();
        if matches!(fields[0], "reading" | "accepted") {
            inputs.push(Vec::new());
        }
        let statement = statement(&fields).ok_or_else(|| {
            io::Error::new(io::ErrorKind::InvalidData, format!("not a vector: {line}"))
        })?;
        match inputs.last_mut() {
            Some(input) => input.push(statement),
            None => {
                return Err(io::Error::new(
                    io::ErrorKind::InvalidData,
                    "a vector before its input",
                ))
            }
        }
    }
    Ok(inputs)
}

/// The statement of one vector.
fn statement(fields: &[&str]) -> Option<Statement> {
    let [kind, case, book, rest @ ..] = fields else {
        return None;
    };
    let files = format!("{} {}", hex_list(case)?, hex_list(book)?);
    let (question, answer) = match (*kind, rest) {
        ("accepted", []) => (format!("reading {files}"), vec![2]),
        ("reading", [n, f, p]) => (
            format!("reading {files}"),
            vec![1, number(n)?, number(f)?, number(p)?],
        ),
        ("single", [choice, k, answer]) => (
            format!("single {files} {} {k}", hex_list(choice)?),
            single_answer(answer)?,
        ),
        ("run", [m, rest @ ..]) => (format!("run {files} {m}"), run_answer(rest)?),
        ("listing", [text]) => (format!("listing {files}"), listing_answer(text)?),
        ("figures", [k, l, rest @ ..]) => {
            (format!("punctual {files} {k} {l}"), figures_answer(rest)?)
        }
        ("plain", [m, rest @ ..]) => (format!("plain {files} {m}"), plain_answer(rest)?),
        ("part", [m, first, most, "All(0)", rest @ ..]) => (
            format!("part {files} {m} {first} {most}"),
            plain_answer(rest)?,
        ),
        _ => return None,
    };
    Some(Statement {
        question,
        answer: list(&answer),
    })
}

/// `refused N` or `refused N F P`, as an answer.
fn refused(text: &str) -> Option<Vec<u64>> {
    let words: Vec<u64> = text
        .strip_prefix("refused ")?
        .split(' ')
        .map(number)
        .collect::<Option<_>>()?;
    match words.as_slice() {
        [n] => Some(vec![1, *n, 0, 0]),
        [n, f, p] => Some(vec![1, *n, *f, *p]),
        _ => None,
    }
}

fn single_answer(text: &str) -> Option<Vec<u64>> {
    match text {
        "none" => Some(vec![2]),
        _ => refused(text).or_else(|| Some(vec![2, number(text)?])),
    }
}

fn run_answer(rest: &[&str]) -> Option<Vec<u64>> {
    match rest {
        [text] => refused(text),
        [length, rows, arrivals] => {
            let mut answer = vec![2, number(length)?];
            for row in rows.split(';').filter(|row| !row.is_empty()) {
                answer.extend(row_image(row)?);
            }
            answer.extend(weights(arrivals)?);
            Some(answer)
        }
        _ => None,
    }
}

/// COUNT|k,t,w;..: how many choices were run, and what they add.
fn plain_answer(rest: &[&str]) -> Option<Vec<u64>> {
    match rest {
        [text] => refused(text),
        [count, arrivals] => {
            let mut answer = vec![2, number(count)?];
            answer.extend(weights(arrivals)?);
            Some(answer)
        }
        _ => None,
    }
}

/// Train, minute and weight of each weight in `k,t,w;..`.
fn weights(arrivals: &str) -> Option<Vec<u64>> {
    let each = arrivals.split(';').filter(|arrival| !arrival.is_empty());
    each.flat_map(|arrival| arrival.split(',').map(number))
        .collect()
}

/// The 16 bytes of docs/FORMATS.md for a row `train,place,kind,minute,set0.set1..`.
fn row_image(row: &str) -> Option<Vec<u64>> {
    let [train, place, kind, minute, sets] = row.split(',').collect::<Vec<_>>()[..] else {
        return None;
    };
    let (place, of) = match place {
        "out" => (0, 0),
        "gone" => (3, 0),
        _ => match place.split_at(1) {
            ("s", of) => (1, number(of)?),
            ("t", of) => (2, number(of)?),
            _ => return None,
        },
    };
    let kind = match kind {
        "stands" => 1,
        "blocks" => 2,
        _ => return None,
    };
    let minute = number(minute)?;
    let mut image = vec![
        number(train)?,
        kind,
        place,
        of,
        minute / 256,
        minute % 256,
        0,
        0,
    ];
    for set in sets.split('.') {
        image.push(number(set)?);
    }
    image.resize(16, 0);
    Some(image)
}

fn listing_answer(text: &str) -> Option<Vec<u64>> {
    if let Some(answer) = refused(text) {
        return Some(answer);
    }
    let mut answer = vec![2];
    answer.extend(hex(text)?);
    Some(answer)
}

/// NUMBER|PART|WHOLE|ONTIME|LATE|MISSING|SUM|WEIGHT: the doubles are divided here.
fn figures_answer(rest: &[&str]) -> Option<Vec<u64>> {
    if let [text] = rest {
        return refused(text);
    }
    let n: Vec<u64> = rest
        .iter()
        .map(|word| number(word))
        .collect::<Option<_>>()?;
    let [kind, part, whole, on_time, late, missing, sum, weight] = n[..] else {
        return None;
    };
    let bits = |part: u64| (part as f64 / whole as f64).to_bits();
    let share = if kind == 3 { bits(part) } else { 0 };
    Some(vec![
        2,
        kind,
        share,
        on_time,
        late,
        missing,
        bits(on_time),
        bits(late),
        bits(missing),
        sum,
        weight,
    ])
}

fn number(text: &str) -> Option<u64> {
    text.parse().ok()
}

fn hex(text: &str) -> Option<Vec<u64>> {
    (0..text.len())
        .step_by(2)
        .map(|at| u64::from_str_radix(text.get(at..at + 2)?, 16).ok())
        .collect()
}

fn hex_list(text: &str) -> Option<String> {
    Some(list(&hex(text)?))
}

/// A list of numbers as antt text.
fn list(numbers: &[u64]) -> String {
    let mut text = String::from("(");
    for number in numbers {
        write!(text, "{number} ∷ ").expect("a string takes all");
    }
    text.push_str("[])");
    text
}

/// A module of a crate with one theorem a vector.
fn module_text(of: &str, inputs: &[&Vec<Statement>]) -> String {
    let mut text = String::from("use Rattle.std.specs.Prelude.{◌≡◌, refl, List, [], ◌∷◌, ℕ}\n");
    let mut opened = format!("{ASKED}, {FLOATS}");
    writeln!(
        text,
        "use Rattle.std.specs.Float.Ieee.{{{FLOATS}}}\nuse Rattle.{of}.specs.Asked.{{{ASKED}}}"
    )
    .expect("a string takes all");
    for (module, names) in OPENED {
        writeln!(text, "use Rattle.rules.specs.{module}.{{{names}}}").expect("a string takes all");
        for name in names.split(", ") {
            opened.push_str(", ");
            opened.push_str(name.rsplit(" as ").next().unwrap_or(name));
        }
    }
    let opened = opened.replace(", ", " ");
    for (number, input) in inputs.iter().enumerate() {
        for (vector, Statement { question, answer }) in input.iter().enumerate() {
            let name = format!("input{number}-vector{vector}");
            writeln!(
                text,
                "\n{name} : {question} ≡ {answer}\nunfolding {opened}\n{name} = refl"
            )
            .expect("a string takes all");
        }
    }
    text
}
