//! What `ini_tool fmt` does, over the Rust crate: reads an INI text from standard input, and writes the document.
use ini::Ini;
use std::io::{self, BufWriter, Read, Write};

fn main() -> Result<(), Box<dyn std::error::Error>> {
    let mut text = String::new();
    io::stdin().lock().read_to_string(&mut text)?;
    let document = Ini::load_from_str(text.strip_prefix('\u{feff}').unwrap_or(&text))?;
    let mut output = BufWriter::new(io::stdout().lock());
    document.write_to(&mut output)?;
    output.flush()?;
    Ok(())
}
