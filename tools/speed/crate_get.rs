//! What `ini_tool get no.such.key` does, over the Rust crate: loads an INI text from standard input, and looks up a key.
use ini::Ini;
use std::io::{self, Read};

fn main() -> Result<(), Box<dyn std::error::Error>> {
    let mut text = String::new();
    io::stdin().lock().read_to_string(&mut text)?;
    let document = Ini::load_from_str(text.strip_prefix('\u{feff}').unwrap_or(&text))?;
    let found = document.get_from(None::<String>, "no.such.key").is_some();
    std::mem::forget(document);
    std::process::exit(if found { 0 } else { 1 })
}
