//! Does what `msc read -` does, in plain Rust: reads a chart's text from standard input and prints
//! its canonical text, or a fault's line. It is the yardstick of `bench/reading`.

use plain::draft::{parse, Fault, TEXT_LIMIT};
use std::io::{self, BufWriter, Read, Write};
use std::process::ExitCode;

fn read_and_print() -> Result<(), Fault> {
    let mut text = Vec::new();
    let limit = TEXT_LIMIT as u64 + 1;
    io::stdin().lock().take(limit).read_to_end(&mut text)?;
    let draft = parse(&text)?;
    let mut out = BufWriter::new(io::stdout().lock());
    draft.write(&mut out)?;
    out.flush()?;
    Ok(())
}

fn main() -> ExitCode {
    match read_and_print() {
        Ok(()) => ExitCode::SUCCESS,
        Err(fault) => {
            let _ = writeln!(io::stderr(), "{fault}");
            ExitCode::from(if matches!(fault, Fault::Device) { 4 } else { 2 })
        }
    }
}
