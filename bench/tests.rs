//! The peer's own tests, without the library: `bench/run tests`.

// The tests use only some of the files' functions.
#![allow(dead_code)]

mod bar_lines;
mod facts;
mod fixed;
mod grammars;
mod harness;
mod heads;
mod holding;
mod listing;
mod lists;
mod moments;
mod multipliers;
mod order_tests;
mod orders;
mod playing;
mod rounded;
mod rounded_tests;
mod rounding;
mod rounding_tests;
mod rules;
mod search;
mod sheets;
mod slide_tests;
mod takes;
mod tap_refusals;
mod tapped;
mod tapped_tests;
mod tapping;
mod tapping_tests;
mod trees;
mod tunes;
mod twins;

use trees::peer;
