//! The blocks that go in the runs of sound inputs, by how many go in a minute and where they stand.

use crate::counts::Counts;
use inputs::questions::counted;
use inputs::sweeps::{sweep, sweeps, Sweep};
use second::joint::{Entry, Kind};
use second::plan::{Place, Plan};

/// A kind of minute in which blocks go: what it is called, and whether a sweep is of it.
type Minutes = (&'static str, fn(&Sweep) -> bool);

/// Every kind of minute that is asked for.
const KINDS: [Minutes; 13] = [
    ("a block goes alone", |sweep| sweep.gone() == 1),
    ("two blocks or more go", |sweep| sweep.gone() > 1),
    ("ten blocks or more go", |sweep| sweep.gone() >= 10),
    ("a hundred blocks or more go", |sweep| sweep.gone() >= 100),
    ("two hundred blocks or more go", |sweep| sweep.gone() >= 200),
    ("blocks go that stand side by side", |sweep| {
        sweep.gone() > sweep.groups()
    }),
    ("blocks go with a kept entry between them", |sweep| {
        sweep.groups() > 1
    }),
    ("blocks go in three places or more", |sweep| {
        sweep.groups() > 2
    }),
    (
        "entries are kept before and after the first that goes",
        |sweep| sweep.before() > 0 && sweep.moved() > 0,
    ),
    ("the first entry goes", |sweep| sweep.before() == 0),
    ("the last entry goes", |sweep| sweep.takes_last()),
    ("all that goes stands at the end", |sweep| {
        sweep.moved() == 0
    }),
    ("blocks stay that go in the next minute", |sweep| {
        sweep.next > 0
    }),
];

#[test]
fn blocks_go_from_every_part_of_the_list_alone_and_together() {
    let mut counts = Counts::default();
    for files in counted().iter().map(|asked| &asked.files) {
        if let Ok(plan) = Plan::read(&files.case, &files.book) {
            for sweep in sweeps(&plan) {
                count(&mut counts, &sweep);
            }
        }
    }
    for (kind, _) in KINDS {
        counts.ask(format!("minutes in which {kind}"));
    }
    counts.show();
}

/// Adds a minute in which blocks go to the kinds that it is of.
fn count(counts: &mut Counts, sweep: &Sweep) {
    for (kind, is) in KINDS {
        counts.add(format!("minutes in which {kind}"), is(sweep).into());
    }
}

/// An entry that stands, or a block, with its minute.
fn entry(kind: Kind, minute: u32) -> Entry {
    Entry {
        train: 0,
        place: Place::Station(0),
        kind,
        minute,
        cover: vec![1],
    }
}

#[test]
fn a_sweep_is_told_by_the_blocks_whose_end_has_come() {
    let (stands, blocks) = (
        |minute| entry(Kind::Stands, minute),
        |minute| entry(Kind::Blocks, minute),
    );
    let list = [
        stands(3),
        blocks(4),
        blocks(4),
        stands(4),
        blocks(5),
        blocks(4),
    ];
    let seen = sweep(&list, 4).expect("blocks go");
    let goes = vec![false, true, true, false, false, true];
    assert_eq!(seen, Sweep { goes, next: 1 });
    let told = (seen.gone(), seen.groups(), seen.before(), seen.moved());
    assert_eq!(told, (3, 2, 1, 2));
    assert!(seen.takes_last());
    assert_eq!(sweep(&list, 3), None);
    let all = sweep(&list[1..], 5).expect("blocks go");
    assert_eq!(
        (all.gone(), all.groups(), all.before(), all.moved()),
        (4, 2, 0, 1)
    );
    assert!(!sweep(&list[..5], 4).expect("blocks go").takes_last());
    let last = sweep(&list[3..], 4).expect("a block goes");
    assert_eq!((last.gone(), last.before(), last.moved()), (1, 2, 0));
}
