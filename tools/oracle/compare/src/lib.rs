//! The original and the port side by side: inputs, both kinds of calls, the questions on their own, and the scenarios.
pub mod ask_links;
pub mod ask_lists;
pub mod ask_path;
pub mod bench_input;
pub mod calls;
pub mod columns;
pub mod damage;
pub mod judge;
pub mod lay;
pub mod list_calls;
pub mod original;
pub mod port;
pub mod random_table;
pub mod random_train;
pub mod report;
pub mod rng;
pub mod routes;
pub mod scenarios;
pub mod sound_path;
pub mod table;
#[allow(dead_code)]
#[rustfmt::skip]
#[path = "../../oracle/src/value.rs"]
pub mod value;
pub mod vectors;
