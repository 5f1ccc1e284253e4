//! Compares the exported field viewer with the second program's, at every place of a file and far past its end.

use crate::called::Exports;
use exports::Viewed;
use second::refusal::PAST_END;
use second::viewer::{View, Viewer};

/// How many places past a file's end are tried.
const PAST: u64 = 4;

/// The first place at which the exported viewer gives something else than the second program's.
pub fn differing_place(exports: &dyn Exports, file: &[u8]) -> Option<u64> {
    let length = file.len() as u64;
    let near = 0..=length + PAST;
    let far = [1 << 16, 1 << 32, 1 << 63].into_iter();
    let far = far.flat_map(|far| far..=far + length);
    let last = u64::MAX - PAST..=u64::MAX;
    let mut places = near.chain(far).chain(last);
    places.find(|place| exports.field(file, *place) != expected(file, *place))
}

/// What the second program's viewer gives of the bytes from a place on; past the end there are none.
fn expected(file: &[u8], place: u64) -> Viewed {
    let rest = usize::try_from(place).ok().and_then(|at| file.get(at..));
    let mut viewer = Viewer::new(rest.unwrap_or_default());
    let given = viewer.give();
    let none = Viewed {
        next: place,
        ..Viewed::default()
    };
    match given {
        View::Field(field) => Viewed {
            refusal: 0,
            given: 1,
            tag: field.tag.into(),
            size: field.body.len() as u16,
            next: place + viewer.place() as u64,
        },
        View::Ended => none,
        View::PastEnd => Viewed {
            refusal: PAST_END.into(),
            ..none
        },
    }
}
