//! The calls that are asked of an input, and how much memory is lent to each.

use crate::drawn::{drawn, COUNTED_SEEDS, FIXED_SEEDS};
use crate::generator::{Chance, Files};
use crate::made::made;
use crate::parts::{self, Before};
use second::plan::Plan;

/// A call of 01 or of the plain engine with its arguments; to a part belongs what the weights hold when they are lent.
#[derive(Clone, Debug, PartialEq, Eq, PartialOrd, Ord)]
pub enum Call {
    Single {
        choice: Vec<u8>,
        train: usize,
    },
    Run {
        stop: usize,
    },
    Listing,
    Figures {
        train: usize,
        limit: u16,
    },
    Plain {
        stop: usize,
    },
    Part {
        stop: usize,
        first: u64,
        count: u64,
        before: Before,
    },
}

/// What a call is lent.
#[derive(Clone, Copy, Debug, PartialEq, Eq)]
pub enum Memory {
    Rows,
    Weights,
    Text,
}

/// All memories, in the order of a question's lengths.
pub const MEMORIES: [Memory; 3] = [Memory::Rows, Memory::Weights, Memory::Text];

/// Bytes of a row and of a weight.
pub const ROW_BYTES: usize = 16;
pub const WEIGHT_BYTES: usize = 8;

impl Memory {
    /// The bytes that a call must be lent: 1,024 rows, 5,040 weights, or the listing's.
    pub fn required(self) -> usize {
        match self {
            Memory::Rows => 1_024 * ROW_BYTES,
            Memory::Weights => 5_040 * WEIGHT_BYTES,
            Memory::Text => 32_768,
        }
    }
}

impl Call {
    /// The memories that the call is lent.
    pub fn memories(&self) -> &'static [Memory] {
        match self {
            Call::Single { .. } => &[],
            Call::Run { .. } | Call::Figures { .. } => &[Memory::Rows, Memory::Weights],
            Call::Listing => &MEMORIES,
            Call::Plain { .. } | Call::Part { .. } => &[Memory::Weights],
        }
    }

    /// What the weights hold when they are lent; only a part adds to it.
    pub fn before(&self) -> Before {
        match self {
            Call::Part { before, .. } => *before,
            _ => Before::All(0),
        }
    }

    /// The call's name.
    pub fn name(&self) -> &'static str {
        match self {
            Call::Single { .. } => "single",
            Call::Run { .. } => "run",
            Call::Listing => "listing",
            Call::Figures { .. } => "figures",
            Call::Plain { .. } => "plain",
            Call::Part { .. } => "part",
        }
    }
}

/// A call, and how many bytes of each memory it is lent.
#[derive(Clone, Debug, PartialEq, Eq)]
pub struct Question {
    pub call: Call,
    pub lent: [usize; 3],
}

impl Question {
    /// A call that is lent just what it needs.
    pub fn exact(call: Call) -> Question {
        let lent = MEMORIES.map(Memory::required);
        Question { call, lent }
    }

    /// The memory of which too little is lent, if there is one.
    pub fn short_of(&self) -> Option<Memory> {
        let mut lent = self.call.memories().iter().copied();
        lent.find(|memory| self.lent[*memory as usize] < memory.required())
    }
}

/// An input with what is asked of it.
pub struct Asked {
    pub files: Files,
    pub questions: Vec<Question>,
}

/// The calls on which definitions are compared with the second program; the plain engine's are drawn apart, so that the others are as they were before there
/// was one.
pub fn few(chance: &mut Chance, plan: &Plan) -> Vec<Call> {
    let mut apart = chance.apart();
    let mut calls: Vec<Call> = (0..4).map(|_| draw_single(chance, plan)).collect();
    let last_minute = plan.head.last_minute as usize;
    let past = usize::from(chance.percent(10));
    for stop in [chance.between(0, last_minute), last_minute + past] {
        calls.push(Call::Run { stop });
    }
    calls.push(Call::Listing);
    calls.extend((0..2).map(|_| draw_figures(chance, plan)));
    calls.extend(parts::few(&mut apart, plan));
    calls
}

/// The questions on which the exports are compared: two with too little memory, then calls with enough; and after them those of the plain engine, which
/// are drawn apart, so that the others are as they were before there was one.
pub fn many(chance: &mut Chance, files: &Files) -> Vec<Question> {
    let mut apart = chance.apart();
    let plan = Plan::read(&files.case, &files.book).ok();
    let mut questions = vec![draw_short(chance), draw_short(chance)];
    let calls = match &plan {
        Some(plan) => answered(chance, plan),
        None => refused(chance),
    };
    questions.extend(with_enough(chance, calls));
    let short = parts::draw_call(&mut apart);
    questions.push(short_of(&mut apart, short, Memory::Weights));
    let calls = match &plan {
        Some(plan) => parts::answered(&mut apart, plan),
        None => parts::refused(&mut apart),
    };
    questions.extend(with_enough(&mut apart, calls));
    questions
}

/// Calls with memory enough.
fn with_enough(chance: &mut Chance, calls: Vec<Call>) -> Vec<Question> {
    let lend = |call| Question {
        call,
        lent: enough(chance),
    };
    calls.into_iter().map(lend).collect()
}

/// The calls of a sound input: arguments that are answered, and some past the last.
fn answered(chance: &mut Chance, plan: &Plan) -> Vec<Call> {
    let mut calls: Vec<Call> = (0..4).map(|_| draw_single(chance, plan)).collect();
    calls.push(far_single(chance, plan));
    let last_minute = plan.head.last_minute as usize;
    let stops = [
        0,
        far(chance, last_minute),
        chance.between(0, last_minute),
        chance.between(0, last_minute),
        last_minute,
    ];
    calls.extend(stops.map(|stop| Call::Run { stop }));
    calls.push(Call::Listing);
    calls.extend((0..2).map(|_| draw_figures(chance, plan)));
    calls.push(Call::Figures {
        train: far(chance, plan.trains() - 1),
        limit: 0,
    });
    calls
}

/// Every call of an input whose reading is refused; its arguments may be out of range too, which is judged later.
fn refused(chance: &mut Chance) -> Vec<Call> {
    let most = far(chance, 6);
    let indices = chance.below(9);
    vec![
        Call::Single {
            choice: (0..indices).map(|_| chance.below(9) as u8).collect(),
            train: [0, most][chance.below(2)],
        },
        Call::Run {
            stop: [0, far(chance, 719)][chance.below(2)],
        },
        Call::Listing,
        Call::Figures {
            train: [0, most][chance.below(2)],
            limit: chance.below(65_536) as u16,
        },
    ]
}

/// The questions of one seed, for the exports.
pub fn of_seed(seed: u64) -> Vec<Asked> {
    let mut chance = Chance::new(seed);
    let inputs = drawn(&mut chance);
    asked_of(&mut chance, inputs)
}

/// The questions of the inputs made for a purpose.
pub fn of_made() -> Vec<Asked> {
    asked_of(&mut Chance::new(0), made())
}

/// The fixed questions for the exports: of the inputs made for a purpose, then of the fixed seeds.
pub fn fixed() -> Vec<Asked> {
    up_to(FIXED_SEEDS)
}

/// The first of the fixed questions, of which it is counted what they reach.
pub fn counted() -> Vec<Asked> {
    up_to(COUNTED_SEEDS)
}

fn up_to(seed: u64) -> Vec<Asked> {
    let seeds = (1..=seed).flat_map(of_seed);
    of_made().into_iter().chain(seeds).collect()
}

fn asked_of(chance: &mut Chance, inputs: Vec<Files>) -> Vec<Asked> {
    let asked = |files: Files| Asked {
        questions: many(chance, &files),
        files,
    };
    inputs.into_iter().map(asked).collect()
}

/// A number past the last: the next, or one that has the same low bytes as a number up to the last.
pub(crate) fn far(chance: &mut Chance, last: usize) -> usize {
    let low = chance.below(last + 1);
    [last + 1, low + (1 << 16), low + (1 << 32), usize::MAX][chance.below(4)]
}

/// A single run with a choice of so many bytes more that their number has the right low byte, or with a train far past the last.
fn far_single(chance: &mut Chance, plan: &Plan) -> Call {
    let trains = plan.trains();
    match chance.percent(30) {
        true => Call::Single {
            choice: vec![0; trains + 256],
            train: 0,
        },
        false => Call::Single {
            choice: vec![0; trains],
            train: far(chance, trains - 1),
        },
    }
}

/// The lengths that are too short by all of a memory, by all but a byte, by a byte, or by a drawn number of bytes.
fn too_short(chance: &mut Chance, required: usize) -> usize {
    [0, 1, required - 1, chance.below(required)][chance.below(4)]
}

/// A call of which one memory is too short.
fn draw_short(chance: &mut Chance) -> Question {
    let (train, limit) = (0, 0);
    let calls = [
        Call::Run { stop: 0 },
        Call::Listing,
        Call::Figures { train, limit },
    ];
    let call = calls[chance.below(3)].clone();
    let memory = call.memories()[chance.below(call.memories().len())];
    short_of(chance, call, memory)
}

/// A call of which this memory is too short.
fn short_of(chance: &mut Chance, call: Call, memory: Memory) -> Question {
    let mut lent = enough(chance);
    lent[memory as usize] = too_short(chance, memory.required());
    Question { call, lent }
}

/// Lengths that are enough: each exact, or longer by a byte or more.
fn enough(chance: &mut Chance) -> [usize; 3] {
    MEMORIES.map(|memory| memory.required() + [0, 0, 1, 33][chance.below(4)])
}

/// A single run of a drawn choice and train; now and then one that is refused 15, 16 or both.
fn draw_single(chance: &mut Chance, plan: &Plan) -> Call {
    let mut choice: Vec<u8> = plan
        .tables
        .iter()
        .map(|table| chance.below(table.delays.len()) as u8)
        .collect();
    if chance.percent(8) {
        let of = chance.below(choice.len());
        choice[of] = (plan.tables[of].delays.len() + chance.below(3)) as u8;
    }
    if chance.percent(4) {
        choice.push(0);
    } else if chance.percent(4) {
        choice.pop();
    }
    let train = draw_train(chance, plan);
    Call::Single { choice, train }
}

/// A train of the case; now and then one past the last.
fn draw_train(chance: &mut Chance, plan: &Plan) -> usize {
    match chance.percent(6) {
        true => plan.trains() + chance.below(3),
        false => chance.below(plan.trains()),
    }
}

/// The figures of a drawn train and limit.
fn draw_figures(chance: &mut Chance, plan: &Plan) -> Call {
    let train = draw_train(chance, plan);
    let limit = [0, 0, 1, 3, chance.below(30), 719, 65_535][chance.below(7)] as u16;
    Call::Figures { train, limit }
}
