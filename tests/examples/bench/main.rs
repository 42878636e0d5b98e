//! The speed of the built library against the model and against the plain, fast version in two forms, all built for
//! release, in one run. Every timed call gave the model's answer and output. No time is held to any bound. The tables are
//! those of docs/SPEED.md.
//!
//! Usage: cargo run --release --example bench

mod blocks;
mod calendar;
mod clock;
mod desk;
mod others;
mod shrink;
mod table;
mod versions;
mod works;

fn main() -> std::io::Result<()> {
    println!(
        "The position has {} bytes, in the library as in (b) and (c).",
        swap_tests::fast::POSITION
    );
    calendar::rates()?;
    versions::runs();
    versions::calls();
    versions::growth();
    others::rates();
    desk::rates();
    blocks::rates();
    shrink::rates();
    Ok(())
}
