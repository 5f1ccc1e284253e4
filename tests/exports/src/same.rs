//! The run and the plain engine fill the same weights wherever the run answers, and parts of the plain engine's run that follow one another fill them too.

use crate::called::{Exports, Part};
use crate::memory::{Lent, Watched};
use inputs::generator::Files;
use inputs::parts::{few_choices, Before};
use inputs::questions::{Call, Question};
use second::plain::choices;
use second::plan::Plan;
use second::refusal::{ROOM, STOP};

/// How many choices the parts have that follow one another: one, none, some, and all that are left.
const PARTS: [u64; 4] = [1, 0, 5, u64::MAX];

/// Whether the weights are the same at the stop minutes of all runs that are asked, and in parts at the last minute. None if the reading refuses the files,
/// or if there are too many choices.
pub fn same_weights(exports: &dyn Exports, files: &Files, asked: &[Question]) -> Option<bool> {
    let plan = Plan::read(&files.case, &files.book).ok();
    let plan = plan.filter(few_choices)?;
    let (last, all) = (u64::from(plan.head.last_minute), choices(&plan));
    let stop_of = |question: &Question| match question.call {
        Call::Run { stop } if question.short_of().is_none() => Some(stop as u64),
        _ => None,
    };
    let mut stops = asked.iter().filter_map(stop_of);
    let same = stops.all(|stop| match as_run(exports, files, stop, all) {
        None => false,
        Some(plain) if stop == last => in_parts(exports, files, stop, all, &plain.weights),
        Some(_) => true,
    });
    Some(same)
}

/// What the plain engine leaves, if it fills the run's weights where that answers, answers where it is refused 12, and is refused 17 as it is.
fn as_run(exports: &dyn Exports, files: &Files, stop: u64, all: u64) -> Option<Lent> {
    let (mut run, mut plain) = (Lent::exact(), Lent::exact());
    let refused = exports.run(files, stop, &mut run).refusal;
    let answer = exports.plain(files, stop, &mut plain);
    let answered = (answer.refusal, answer.value) == (0, all);
    let same = match refused {
        0 => answered && plain.weights.part() == run.weights.part(),
        number if number == u16::from(ROOM) => answered,
        number => number == u16::from(STOP) && answer.refusal == number,
    };
    same.then_some(plain)
}

/// Whether parts that follow one another run all choices together, and fill the weights of the whole.
fn in_parts(exports: &dyn Exports, files: &Files, stop: u64, all: u64, whole: &Watched) -> bool {
    let mut lent = Lent::exact().with_weights(Before::All(0));
    let mut first = 0;
    for count in PARTS {
        let part = Part { stop, first, count };
        first = first.saturating_add(exports.part(files, part, &mut lent).value);
    }
    first == all && lent.weights.part() == whole.part()
}
