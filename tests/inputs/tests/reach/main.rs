//! What the first of the fixed inputs reach, on which the exported functions are compared: each kind of refusal in each field it can stand in, each two faults that
//! can meet in one field, held entries split again and again, pieces held at each count, entries of the most weight,
//! blocks that go from each part of the list, alone and together, elements that are entered in the minute in which they become free, pieces held at the partner
//! of a coupled track and behind it, each refusal of a call,
//! and the plain engine where the joint run has no room, its parts, and sums that stop at 2^64 − 1.
//! No count may be zero.

mod calls;
mod counts;
mod faults;
mod freed;
mod kinds;
mod parts;
mod runs;
mod sweeps;
mod waits;
