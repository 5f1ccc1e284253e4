//! Lent memory of every length: too short it stays as it was, and of longer memory only the required part changes.

use crate::called::{Exports, Linked, Part};
use crate::example::shift;
use crate::memory::Lent;
use crate::refusals::{refusal, refusal_of};
use crate::tally::Tally;
use inputs::generator::Files;
use inputs::parts::Before;
use inputs::questions::{Call, Memory, MEMORIES};
use second::refusal::{COUNT, MEMORY, NO_TRAIN, ROOM, STOP};

/// A call on some files, and the number of the refusal that it gets with memory enough, 0 for none.
struct Case {
    what: &'static str,
    files: Files,
    call: Call,
    refusal: u8,
}

/// How many bytes more than is required are lent at most.
const MORE: usize = 40;

/// Puts every call to memory of every length, answered and refused.
pub fn every_length(tally: &mut Tally) {
    for case in cases() {
        for memory in case.call.memories() {
            let what = format!("failed: {}: {memory:?}", case.what);
            tally.expect(too_short(&case, *memory), || format!("{what} too short"));
            for more in 0..=MORE {
                let holds = enough(&case, *memory, more);
                tally.expect(holds, || format!("{what}, {more} bytes more"));
            }
        }
    }
}

/// Answered and refused: by the files, by the arguments, by the room.
fn cases() -> Vec<Case> {
    let case = |what, files, call, refusal| Case {
        what,
        files,
        call,
        refusal,
    };
    let (stop, train, limit) = (20, 1, 0);
    let run = Call::Run { stop };
    let figures = Call::Figures { train, limit };
    let (empty, small) = (
        || shift(|case| case.clear()),
        || shift(|case| case[6..8].copy_from_slice(&[0, 6])),
    );
    let whole = || shift(|_| {});
    let plain = |stop| Call::Plain { stop };
    let part = |stop| Call::Part {
        stop,
        first: 0,
        count: 4,
        before: Before::All(0),
    };
    vec![
        case("run: answered", whole(), run.clone(), 0),
        case("run: refused 5", empty(), run.clone(), COUNT),
        case("run: refused 17", whole(), Call::Run { stop: 21 }, STOP),
        case("run: refused 12", small(), run, ROOM),
        case("listing: answered", whole(), Call::Listing, 0),
        case("listing: refused 5", empty(), Call::Listing, COUNT),
        case("listing: refused 12", small(), Call::Listing, ROOM),
        case("figures: answered", whole(), figures.clone(), 0),
        case("figures: refused 5", empty(), figures.clone(), COUNT),
        case(
            "figures: refused 16",
            whole(),
            Call::Figures { train: 2, limit },
            NO_TRAIN,
        ),
        case("figures: refused 12", small(), figures, ROOM),
        case("plain: answered", whole(), plain(20), 0),
        case("plain: answered without room", small(), plain(20), 0),
        case("plain: refused 5", empty(), plain(20), COUNT),
        case("plain: refused 17", whole(), plain(21), STOP),
        case("part: answered", whole(), part(20), 0),
        case("part: answered without room", small(), part(20), 0),
        case("part: refused 5", empty(), part(20), COUNT),
        case("part: refused 17", whole(), part(21), STOP),
    ]
}

/// Whether a call is refused 14 for each length of a memory that is too short, and has changed no byte after all of them.
fn too_short(case: &Case, memory: Memory) -> bool {
    let mut lent = lent_to(case, Lent::exact());
    let mut lengths = 0..memory.required();
    let refused = lengths.all(|length| {
        lent.shorten(memory, length);
        ask(case, &mut lent) == Some(MEMORY.into())
    });
    refused && lent.untouched()
}

/// Whether a call with so many bytes more of a memory than is required does what it must.
fn enough(case: &Case, memory: Memory, more: usize) -> bool {
    let mut lengths = MEMORIES.map(Memory::required);
    lengths[memory as usize] += more;
    let mut lent = lent_to(case, Lent::new(lengths, 0x3C));
    let refusal = ask(case, &mut lent);
    let memories = case.call.memories();
    match case.refusal {
        0 => refusal == Some(0) && filled(&lent, memories),
        number => refusal == Some(number.into()) && lent.zero(memories),
    }
}

/// Memory as it is lent to the call: a part adds to its weights.
fn lent_to(case: &Case, lent: Lent) -> Lent {
    match case.call {
        Call::Part { before, .. } => lent.with_weights(before),
        _ => lent,
    }
}

/// The number of the refusal, 0 for none, if a refusal is all that is answered.
fn ask(case: &Case, lent: &mut Lent) -> Option<u16> {
    let (answered, refusal) = match &case.call {
        Call::Figures { train, limit } => {
            let figures = Linked.figures(&case.files, *train as u64, *limit, lent);
            (figures.refusal == 0, refusal_of(&figures))
        }
        call => {
            let answer = match call {
                Call::Run { stop } => Linked.run(&case.files, *stop as u64, lent),
                Call::Plain { stop } => Linked.plain(&case.files, *stop as u64, lent),
                Call::Part {
                    stop, first, count, ..
                } => {
                    let (stop, first, count) = (*stop as u64, *first, *count);
                    Linked.part(&case.files, Part { stop, first, count }, lent)
                }
                _ => Linked.listing(&case.files, lent),
            };
            (answer.refusal == 0, refusal(answer))
        }
    };
    match answered {
        true => Some(0),
        false => refusal,
    }
}

/// Whether the memories hold what the listing leaves in memory that is just enough, as the run to the last minute, the figures and the plain engine do, and
/// no other byte has changed.
fn filled(lent: &Lent, memories: &[Memory]) -> bool {
    let mut exact = Lent::exact();
    Linked.listing(&shift(|_| {}), &mut exact);
    MEMORIES
        .iter()
        .all(|memory| match memories.contains(memory) {
            true => lent.of(*memory).holds(exact.of(*memory).part()),
            false => lent.of(*memory).untouched(),
        })
}
