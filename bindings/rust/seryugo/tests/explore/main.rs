//! Programs that are explored: with a bug, and without one.

mod asking;
mod buggy;
mod bugs;
mod clean;
mod diverging;
mod ends;
mod first;
mod futures;
mod lanes;
mod locks;
#[path = "../common/patience.rs"]
mod patience;
mod programs;
mod real_runs;
mod reruns;
mod rings;
mod table;
mod time_outs;
