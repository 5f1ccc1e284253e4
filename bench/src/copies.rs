//! What a run copies: all calls of memcpy and memmove, which are those of the passes, beside the rows that the sweeps move.

use crate::cases::Files;
use crate::clock::in_turns;
use crate::counts::counts;
use crate::library::Library;
use crate::measured::SECONDS;
use crate::tables::{figure, time};
use std::ffi::c_void;

/// What bench/copies.c counts: passes, calls, bytes, and the bytes of rows that a pass puts back at another place.
#[repr(C)]
#[derive(Default)]
struct Counted {
    passes: usize,
    calls: usize,
    bytes: usize,
    moved: usize,
}

/// The functions of bench/copies.c.
type Begin = unsafe extern "C" fn();
type End = unsafe extern "C" fn(*mut Counted) -> i32;
type Again = unsafe extern "C" fn();

/// This build, and the same with each copy noted.
pub struct Copies {
    this: Library,
    noting: Library,
    begin: Begin,
    end: End,
    again: Again,
}

impl Copies {
    pub fn open(this: &str, noting: &str) -> Copies {
        let noting = Library::open(noting);
        // SAFETY: they are the functions that bench/copies.c declares so.
        unsafe {
            Copies {
                this: Library::open(this),
                begin: std::mem::transmute::<*mut c_void, Begin>(noting.function("copies_begin")),
                end: std::mem::transmute::<*mut c_void, End>(noting.function("copies_end")),
                again: std::mem::transmute::<*mut c_void, Again>(noting.function("copies_again")),
                noting,
            }
        }
    }

    pub fn print_head(&self) {
        println!("| case | run | passes | calls of memcpy | bytes copied | bytes put back at another place | the copies alone | share of the run | rows moved by sweeps |");
        println!("|---|---|---|---|---|---|---|---|---|");
    }

    /// A line of the table.
    pub fn print(&mut self, files: &Files) {
        eprintln!("{}", files.name);
        let plan = files.plan();
        let last = plan.head.last_minute;
        let copies = self.note(files, last);
        let again = self.again;
        let this = &mut self.this;
        // SAFETY: it copies within memory of its own.
        let made_again = || unsafe { again() };
        let (run, alone) = in_turns(SECONDS, || this.run(files, last), made_again);
        println!(
            "| {} | {} | {} | {} | {} | {} | {} | {} % | {} |",
            files.name,
            time(run),
            copies.passes,
            copies.calls,
            copies.bytes,
            copies.moved,
            time(alone),
            figure(100.0 * alone / run),
            counts(&plan).swept,
        );
    }

    /// What one run copies.
    fn note(&mut self, files: &Files, last: u32) -> Counted {
        let mut counted = Counted::default();
        // SAFETY: the functions of bench/copies.c may be called in this order; the second writes what `Counted` is.
        let all = unsafe {
            (self.begin)();
            self.noting.run(files, last);
            (self.end)(&mut counted)
        };
        assert!(all == 1, "{}: too many copies", files.name);
        counted
    }
}
