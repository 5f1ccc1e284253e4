//! The cases that are timed: those of a folder, each with the book beside it.

use crate::exported::Desk;
use second::plan::Plan;
use std::path::{Path, PathBuf};

/// A case and its book.
pub struct Files {
    pub name: String,
    pub case: Vec<u8>,
    pub book: Vec<u8>,
}

impl Files {
    /// The case as the second program runs it.
    pub fn plan(&self) -> Plan {
        Plan::read(&self.case, &self.book).expect("a sound case")
    }

    /// The case itself, or with a safety time that is one more, so that each block is a minute longer.
    pub fn given(&self, longer: bool) -> Files {
        let mut case = self.case.clone();
        case[SAFETY] += u8::from(longer);
        Files {
            name: self.name.clone(),
            case,
            book: self.book.clone(),
        }
    }
}

/// Where the safety time stands in a case.
const SAFETY: usize = 5;

/// The cases of the folder by name, all or those whose names begin with one of the words.
pub fn cases(folder: &str, words: &[String]) -> Vec<Files> {
    let entries = std::fs::read_dir(folder).expect("the folder of cases");
    let mut paths: Vec<PathBuf> = entries.map(|entry| entry.expect("a file").path()).collect();
    paths.retain(|path| path.extension().map_or(false, |end| end == "case"));
    paths.sort();
    let all = paths.iter().map(|path| read(path)).collect();
    meant(all, words)
}

/// Those that the exported run answers over the whole window, each itself or with longer blocks. The others are said, and are not timed.
pub fn answered(mut all: Vec<Files>, longer: bool) -> Vec<Files> {
    let mut desk = Desk::new();
    all.retain(|files| {
        let files = files.given(longer);
        let answer = desk.run(&files.case, &files.book, files.plan().head.last_minute);
        if let Err(number) = answer {
            println!(
                "{} is not timed: the run is refused {number}.\n",
                files.name
            );
        }
        answer.is_ok()
    });
    all
}

/// Those whose names begin with one of the words; without a word, all.
pub fn meant(all: Vec<Files>, words: &[String]) -> Vec<Files> {
    let begins = |files: &Files| words.iter().any(|word| files.name.starts_with(word));
    all.into_iter()
        .filter(|files| words.is_empty() || begins(files))
        .collect()
}

/// A case and the book beside it.
fn read(path: &Path) -> Files {
    let name = path.file_stem().unwrap_or_default();
    Files {
        name: name.to_string_lossy().into_owned(),
        case: std::fs::read(path).expect("a case"),
        book: std::fs::read(path.with_extension("book")).unwrap_or_default(),
    }
}
