//! Plays a script from standard input with the plain decoder.

use desktern_bench::answers::{Answer, Beginning, Calls};
use desktern_bench::reel::Reel;
use desktern_bench::script;
use std::io::{self, Read, Write};

fn main() -> io::Result<()> {
    let mut bytes = Vec::new();
    io::stdin().read_to_end(&mut bytes)?;
    io::stdout().write_all(script::play(&bytes, &make).as_bytes())
}

fn make(beginning: Beginning) -> Result<Box<dyn Calls>, Answer> {
    Ok(Box::new(Reel::new(beginning)?))
}
