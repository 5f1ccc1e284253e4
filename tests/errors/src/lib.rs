//! The second program with an error of the trade (01) built in, which it itself has not: a module for each edit of edits/.

include!(concat!(env!("OUT_DIR"), "/edited.rs"));
