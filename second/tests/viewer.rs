//! The field viewer: it gives one field after another and judges no tag and no length.

use inputs::writer::{field, station};
use second::viewer::{Field, View, Viewer};

/// What the viewer gives for a field.
fn seen(offset: usize, tag: u8, body: &[u8]) -> View<'_> {
    View::Field(Field { offset, tag, body })
}

#[test]
fn it_gives_fields_without_judging_them() {
    let long = vec![7; 65_535];
    let bytes = [field(9, &[1, 2]), field(0, &[]), field(2, &long)].concat();
    let mut viewer = Viewer::new(&bytes);
    assert_eq!(viewer.give(), seen(0, 9, &[1, 2]));
    assert_eq!(viewer.give(), seen(5, 0, &[]));
    assert_eq!(viewer.give(), seen(8, 2, &long));
    for _ in 0..3 {
        assert_eq!((viewer.give(), viewer.place()), (View::Ended, bytes.len()));
    }
}

#[test]
fn it_gives_refusal_1_and_stays() {
    for rest in [&[1, 255, 255, 3][..], &[0], &[6, 0], &[2, 0, 1]] {
        let bytes = [station(1), rest.to_vec()].concat();
        let mut viewer = Viewer::new(&bytes);
        assert_eq!(viewer.give(), seen(0, 2, &[1]));
        for _ in 0..3 {
            assert_eq!((viewer.give(), viewer.place()), (View::PastEnd, 4));
        }
    }
    assert_eq!(Viewer::new(&[]).give(), View::Ended);
}

/// A file of this repository.
fn kept(path: &str) -> Vec<u8> {
    std::fs::read(format!("{}/../{path}", env!("CARGO_MANIFEST_DIR")))
        .expect("a file of the repository")
}

/// The files that the program `tool_view` views: some of tags and lengths that no reader takes, some cut short, and some that `tool_judge` judges.
fn viewed_files() -> Vec<Vec<u8>> {
    let strange = [field(9, &[1, 2]), field(0, &[]), field(255, &[7; 1_000])].concat();
    let mut files: Vec<Vec<u8>> = (0..6)
        .map(|cut| strange[..strange.len() - cut].to_vec())
        .collect();
    files.extend((0..=station(1).len()).map(|length| station(1)[..length].to_vec()));
    files.push([vec![0; 4_094], vec![1, 255]].concat());
    files.push([field(3, &[0; 255]), vec![2, 255, 255], vec![0; 300]].concat());
    let pairs = kept("crates/tool_judge/stdin");
    let mut rest = &pairs[..];
    for _ in 0..60 {
        let (case, book) = (
            usize::from(rest[0]) * 256 + usize::from(rest[1]),
            usize::from(rest[2]) * 256 + usize::from(rest[3]),
        );
        files.push(rest[4..4 + case].to_vec());
        files.push(rest[4 + case..4 + case + book].to_vec());
        rest = &rest[4 + case + book..];
    }
    files
}

/// What the viewer gives of a file until it stays, a line for each.
fn lines(file: &[u8]) -> String {
    let mut viewer = Viewer::new(file);
    let mut text = String::new();
    loop {
        let place = viewer.place();
        match viewer.give() {
            View::Field(field) => {
                text.push_str(&format!("{place} {} {}\n", field.tag, field.body.len()))
            }
            View::Ended => return text + &format!("ended {place}\n"),
            View::PastEnd => return text + &format!("refused 1 {place}\n"),
        }
    }
}

#[test]
fn the_proved_viewer_gives_the_same() {
    let files = viewed_files();
    let packed: Vec<u8> = files
        .iter()
        .flat_map(|file| [&(file.len() as u16).to_be_bytes()[..], file].concat())
        .collect();
    assert_eq!(packed, kept("crates/tool_view/stdin"));
    let printed: String = files.iter().map(|file| lines(file)).collect();
    assert_eq!(printed.as_bytes(), kept("crates/tool_view/stdout"));
}
