//! Copies the second program's library once for each edit of edits/, makes the edit in the copy, and writes a module for each copy.
//! An edit has a comment and, for each place that it changes, `file:`, `old:`, which must stand in that file once, and `new:` to the next place or to the end.

use std::fs;
use std::path::{Path, PathBuf};

fn main() {
    let here = folder("CARGO_MANIFEST_DIR");
    let (source, edits) = (here.join("../../second/src"), here.join("edits"));
    let out = folder("OUT_DIR");
    let mut paths: Vec<PathBuf> = fs::read_dir(&edits)
        .expect("the folder of edits")
        .map(|entry| entry.expect("an edit").path())
        .collect();
    paths.sort();
    let modules: String = paths.iter().map(|edit| copy(&source, &out, edit)).collect();
    fs::write(out.join("edited.rs"), modules).expect("the modules are written");
    for folder in [&source, &edits] {
        println!("cargo:rerun-if-changed={}", folder.display());
    }
}

/// A folder that cargo names.
fn folder(variable: &str) -> PathBuf {
    PathBuf::from(std::env::var(variable).expect("cargo names its folders"))
}

/// Writes the library with the edit made, and gives the module that has it: its modules are then one level lower.
fn copy(source: &Path, out: &Path, edit: &Path) -> String {
    let name = edit.file_stem().expect("a name").to_string_lossy();
    let text = fs::read_to_string(edit).expect("an edit");
    let changes: Vec<Change> = text.split("\nfile: ").skip(1).map(change).collect();
    let into = out.join(&*name);
    fs::create_dir_all(&into).expect("a folder for the copy");
    let library = fs::read_to_string(source.join("lib.rs")).expect("the library");
    let (mut modules, mut made) = (String::new(), 0);
    for module in library.lines().filter(|line| line.starts_with("pub mod ")) {
        let of = format!("{}.rs", &module[8..module.len() - 1]);
        let mut code = fs::read_to_string(source.join(&of)).expect("a module");
        for (_, old, new) in changes.iter().filter(|(file, _, _)| *file == of) {
            assert_eq!(code.matches(old).count(), 1, "{name}: {old}");
            code = code.replace(old, new);
            made += 1;
        }
        fs::write(into.join(&of), code.replace("crate::", "super::")).expect("a copy");
        modules += &format!("#[path = {:?}]\n{module}\n", into.join(&of));
    }
    assert!(made > 0 && made == changes.len(), "{name}: {made} changes");
    format!("pub mod {name} {{\n{modules}}}\n")
}

/// A place that is changed: the file, the old text and the new text.
type Change<'a> = (&'a str, &'a str, &'a str);

/// A change, from what stands behind its `file:`.
fn change(text: &str) -> Change<'_> {
    let (file, rest) = text.split_once("\nold: ").expect("old:");
    let (old, new) = rest.split_once("\nnew: ").expect("new:");
    (file, old, new.trim_end())
}
