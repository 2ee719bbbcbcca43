//! Files written by the library and by the writer, compared, and read back where finished.

mod bounds;
mod broken;
mod contents;
mod extremes;
mod faults;
pub mod generate;
mod random_sessions;
pub mod read;
mod read_back;
mod session;
mod states;

use crate::report::NamedRun;

pub const GROUPS: [NamedRun; 18] = [
    ("published samples", bounds::published),
    ("header letters", bounds::header_letters),
    ("names", bounds::names),
    ("clips", contents::clips),
    ("flow steps", contents::flow_steps),
    ("counts that disagree", bounds::counts),
    ("rooms", bounds::rooms),
    ("numbers of reads", bounds::read_counts),
    ("long sessions", extremes::long_sessions),
    ("many bases", extremes::many_bases),
    ("past 32 bits", extremes::past_32_bits),
    ("one rule broken", broken::alone),
    ("two rules broken", broken::pairs),
    ("on after refusals", broken::going_on),
    ("from extreme states", states::extreme),
    ("near the output's end", states::near_the_end),
    ("from random states", states::random),
    ("random sessions", random_sessions::sessions),
];
