//! Edits of a file by toml_edit, in the words of `ini_file`, which `tests/peers.sh` compares with it:
//!
//!     toml_edit_edits set FILE KEY NUMBER [SECTION]
//!     toml_edit_edits delete FILE KEY [SECTION]
//!     toml_edit_edits delete-section FILE SECTION
use std::error::Error;
use toml_edit::{value, Document, Table};

/// The table of the name, new where it isn't there; without a name the top one.
fn table<'a>(document: &'a mut Document, name: &[&str]) -> Result<&'a mut Table, Box<dyn Error>> {
    let Some(name) = name.first() else {
        return Ok(document.as_table_mut());
    };
    let item = document.entry(name).or_insert(toml_edit::table());
    item.as_table_mut().ok_or_else(|| "no table".into())
}

fn main() -> Result<(), Box<dyn Error>> {
    let words: Vec<String> = std::env::args().skip(1).collect();
    let words: Vec<&str> = words.iter().map(String::as_str).collect();
    let file = words.get(1).ok_or("no file")?;
    let mut document: Document = std::fs::read_to_string(file)?.parse()?;
    match words.as_slice() {
        ["set", _, key, number, section @ ..] => {
            table(&mut document, section)?[key] = value(number.parse::<i64>()?);
        }
        ["delete", _, key, section @ ..] => {
            table(&mut document, section)?.remove(key).ok_or("no key")?;
        }
        ["delete-section", _, section] => {
            document.remove(section).ok_or("no section")?;
        }
        _ => return Err("unknown words".into()),
    }
    std::fs::write(file, document.to_string())?;
    Ok(())
}
