//! The program `second CASE BOOK`: prints the listing of a case, or its refused line.

use second::calls::{listing, LISTING, ROWS, WEIGHTS};
use second::listing::refused_line;
use std::fs::File;
use std::io::{self, Read, Write};
use std::process::ExitCode;

/// At most so many bytes of each file are handed on.
const HANDED: u64 = 4_096;

fn main() -> ExitCode {
    let arguments: Vec<String> = std::env::args().skip(1).collect();
    let (case, book) = match arguments.as_slice() {
        [case, book] => (case, book),
        _ => {
            eprintln!("use: second CASE BOOK");
            return ExitCode::from(2);
        }
    };
    match first_bytes(case).and_then(|case| print(&case, &book_bytes(book))) {
        Ok(()) => ExitCode::SUCCESS,
        Err(error) => {
            eprintln!("second: {case}: {error}");
            ExitCode::from(2)
        }
    }
}

/// Prints the listing of a case with its book, or the refused line.
fn print(case: &[u8], book: &[u8]) -> io::Result<()> {
    let mut rows = vec![None; ROWS];
    let mut weights = vec![0; WEIGHTS];
    let mut bytes = vec![0; LISTING];
    let text = match listing(case, book, &mut rows, &mut weights, &mut bytes) {
        Ok(length) => bytes[..length].to_vec(),
        Err(refusal) => refused_line(&refusal),
    };
    io::stdout().write_all(&text)
}

/// The book's bytes; a book that can't be opened counts as empty.
fn book_bytes(name: &str) -> Vec<u8> {
    first_bytes(name).unwrap_or_default()
}

/// The first 4,096 bytes of a file, or fewer if it is shorter.
fn first_bytes(name: &str) -> io::Result<Vec<u8>> {
    let mut bytes = Vec::new();
    File::open(name)?.take(HANDED).read_to_end(&mut bytes)?;
    Ok(bytes)
}
