//! The exported functions of include/lampreysong.h for Rust. Each takes any bytes, of any length.

/// Bytes that a call must be lent for rows, for weights and for the listing's text.
pub const ROWS: usize = 16_384;
pub const WEIGHTS: usize = 40_320;
pub const TEXT: usize = 32_768;

/// The single run's answer for a train that does not arrive by the last minute.
pub const NONE: u64 = 65_535;

/// What the single run, the run, the listing and the plain engine answer.
#[repr(C)]
#[derive(Clone, Copy, Debug, Default, PartialEq, Eq)]
pub struct Answer {
    pub refusal: u16,
    pub file: u16,
    pub place: u32,
    pub value: u64,
}

/// Punctuality: never, always, or a share.
pub const NEVER: u32 = 1;
pub const ALWAYS: u32 = 2;
pub const SHARE: u32 = 3;

/// What the figures answer.
#[repr(C)]
#[derive(Clone, Copy, Debug, Default)]
pub struct TrainFigures {
    pub refusal: u16,
    pub file: u16,
    pub place: u32,
    pub punctuality: u32,
    pub zero: u32,
    pub share: f64,
    pub on_time: f64,
    pub late: f64,
    pub not_arrived: f64,
    pub lateness: u64,
    pub arrived: u64,
    pub kept: [u64; 4],
}

/// What the field viewer gives at a place.
#[repr(C)]
#[derive(Clone, Copy, Debug, Default, PartialEq, Eq)]
pub struct Viewed {
    pub refusal: u16,
    pub given: u16,
    pub tag: u16,
    pub size: u16,
    pub next: u64,
}

/// Each slice is handed over as its start and its length.
mod linked {
    use super::{Answer, TrainFigures, Viewed};

    extern "C" {
        pub fn lampreysong_single(
            case: *const u8,
            case_length: usize,
            book: *const u8,
            book_length: usize,
            choice: *const u8,
            choice_length: usize,
            train: u64,
        ) -> Answer;

        pub fn lampreysong_run(
            case: *const u8,
            case_length: usize,
            book: *const u8,
            book_length: usize,
            stop: u64,
            rows: *mut u8,
            rows_length: usize,
            weights: *mut u8,
            weights_length: usize,
        ) -> Answer;

        pub fn lampreysong_listing(
            case: *const u8,
            case_length: usize,
            book: *const u8,
            book_length: usize,
            rows: *mut u8,
            rows_length: usize,
            weights: *mut u8,
            weights_length: usize,
            text: *mut u8,
            text_length: usize,
        ) -> Answer;

        pub fn lampreysong_figures(
            case: *const u8,
            case_length: usize,
            book: *const u8,
            book_length: usize,
            train: u64,
            limit: u16,
            rows: *mut u8,
            rows_length: usize,
            weights: *mut u8,
            weights_length: usize,
        ) -> TrainFigures;

        pub fn lampreysong_plain(
            case: *const u8,
            case_length: usize,
            book: *const u8,
            book_length: usize,
            stop: u64,
            weights: *mut u8,
            weights_length: usize,
        ) -> Answer;

        pub fn lampreysong_plain_part(
            case: *const u8,
            case_length: usize,
            book: *const u8,
            book_length: usize,
            stop: u64,
            first: u64,
            count: u64,
            weights: *mut u8,
            weights_length: usize,
        ) -> Answer;

        pub fn lampreysong_field(file: *const u8, length: usize, place: u64) -> Viewed;
    }
}

/// The minute in which a choice brings a train to its last station.
pub fn single(case: &[u8], book: &[u8], choice: &[u8], train: u64) -> Answer {
    // SAFETY: each pointer comes with the length of its own slice, and the slices outlive the call.
    unsafe {
        linked::lampreysong_single(
            case.as_ptr(),
            case.len(),
            book.as_ptr(),
            book.len(),
            choice.as_ptr(),
            choice.len(),
            train,
        )
    }
}

/// The joint run to a stop minute: rows, weights and the number of entries.
pub fn run(case: &[u8], book: &[u8], stop: u64, rows: &mut [u8], weights: &mut [u8]) -> Answer {
    // SAFETY: each pointer comes with the length of its own slice; lent slices share no byte with any other, and all outlive the call.
    unsafe {
        linked::lampreysong_run(
            case.as_ptr(),
            case.len(),
            book.as_ptr(),
            book.len(),
            stop,
            rows.as_mut_ptr(),
            rows.len(),
            weights.as_mut_ptr(),
            weights.len(),
        )
    }
}

/// The listing over the whole window, with rows and weights after the last minute, and its number of bytes.
pub fn listing(
    case: &[u8],
    book: &[u8],
    rows: &mut [u8],
    weights: &mut [u8],
    text: &mut [u8],
) -> Answer {
    // SAFETY: each pointer comes with the length of its own slice; lent slices share no byte with any other, and all outlive the call.
    unsafe {
        linked::lampreysong_listing(
            case.as_ptr(),
            case.len(),
            book.as_ptr(),
            book.len(),
            rows.as_mut_ptr(),
            rows.len(),
            weights.as_mut_ptr(),
            weights.len(),
            text.as_mut_ptr(),
            text.len(),
        )
    }
}

/// The figures of a train for a limit in minutes, with rows and weights after the last minute.
pub fn figures(
    case: &[u8],
    book: &[u8],
    train: u64,
    limit: u16,
    rows: &mut [u8],
    weights: &mut [u8],
) -> TrainFigures {
    // SAFETY: each pointer comes with the length of its own slice; lent slices share no byte with any other, and all outlive the call.
    unsafe {
        linked::lampreysong_figures(
            case.as_ptr(),
            case.len(),
            book.as_ptr(),
            book.len(),
            train,
            limit,
            rows.as_mut_ptr(),
            rows.len(),
            weights.as_mut_ptr(),
            weights.len(),
        )
    }
}

/// The plain engine to a stop minute: weights, and the number of choices run.
pub fn plain(case: &[u8], book: &[u8], stop: u64, weights: &mut [u8]) -> Answer {
    // SAFETY: each pointer comes with the length of its own slice; the lent slice shares no byte with any other, and all outlive the call.
    unsafe {
        linked::lampreysong_plain(
            case.as_ptr(),
            case.len(),
            book.as_ptr(),
            book.len(),
            stop,
            weights.as_mut_ptr(),
            weights.len(),
        )
    }
}

/// The choices numbered from the first on, at most so many, by the plain engine, added to the weights as they are lent, and the number of choices run.
pub fn plain_part(
    case: &[u8],
    book: &[u8],
    stop: u64,
    first: u64,
    count: u64,
    weights: &mut [u8],
) -> Answer {
    // SAFETY: each pointer comes with the length of its own slice; the lent slice shares no byte with any other, and all outlive the call.
    unsafe {
        linked::lampreysong_plain_part(
            case.as_ptr(),
            case.len(),
            book.as_ptr(),
            book.len(),
            stop,
            first,
            count,
            weights.as_mut_ptr(),
            weights.len(),
        )
    }
}

/// What the field viewer gives at a place of a file, and its place then.
pub fn field(file: &[u8], place: u64) -> Viewed {
    // SAFETY: the pointer comes with the length of its own slice, which outlives the call.
    unsafe { linked::lampreysong_field(file.as_ptr(), file.len(), place) }
}
