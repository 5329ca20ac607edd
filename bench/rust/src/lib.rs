//! The Rust's decoder and encoder in the loops of crates/bench_loops, and a dump made of its decoder,
//! for C to call. NAMES is what the functions' names begin with there, so that one program can hold this
//! built in two ways.
mod dump;
mod feeding;
mod writing;
