//! The Rust crate's answers to the questions of `ini_replay answers`, in the same form: see the head of its `answers.rt`.
//!
//! The crate reads brackets in names, or doesn't, as it was built; the feature `brackets` says so, and `notes` that it reads
//! inline comments. A line that asks for the other, or is no question, ends the program, with its number and status 2.
use ini::{EscapePolicy, Ini, LineSeparator, ParseOption, Properties, WriteOption};
use std::io::{self, BufRead, BufWriter, Write};
use std::process::ExitCode;

/// What one line of the input asks.
struct Question {
    text: String,
    reading: ParseOption,
    writing: Option<WriteOption>,
}

fn flag(digit: u8) -> Option<bool> {
    match digit {
        b'0' => Some(false),
        b'1' => Some(true),
        _ => None,
    }
}

fn reading_of_flags(flags: &str) -> Option<ParseOption> {
    let [escape, quote, multiline, indent, brackets, lacked @ ..] = flags.as_bytes() else {
        return None;
    };
    let asked: &[u8] = if cfg!(feature = "notes") {
        b"0001"
    } else {
        b""
    };
    if flag(*brackets)? != cfg!(feature = "brackets") || lacked != asked {
        return None;
    }
    Some(ParseOption {
        enabled_escape: flag(*escape)?,
        enabled_quote: flag(*quote)?,
        enabled_indented_mutiline_value: flag(*multiline)?,
        enabled_preserve_key_leading_whitespace: flag(*indent)?,
    })
}

fn policy_of_name(name: &str) -> Option<EscapePolicy> {
    match name {
        "Nothing" => Some(EscapePolicy::Nothing),
        "Basics" => Some(EscapePolicy::Basics),
        "BasicsUnicode" => Some(EscapePolicy::BasicsUnicode),
        "BasicsUnicodeExtended" => Some(EscapePolicy::BasicsUnicodeExtended),
        "Reserved" => Some(EscapePolicy::Reserved),
        "ReservedUnicode" => Some(EscapePolicy::ReservedUnicode),
        "ReservedUnicodeExtended" => Some(EscapePolicy::ReservedUnicodeExtended),
        "Everything" => Some(EscapePolicy::Everything),
        _ => None,
    }
}

/// The line separator that writes a line end. `CR` is the one that writes LF, on every platform.
fn separator_of_name(name: &str) -> Option<LineSeparator> {
    match name {
        "LF" => Some(LineSeparator::CR),
        "CRLF" => Some(LineSeparator::CRLF),
        _ => None,
    }
}

fn byte(pair: &[u8]) -> Option<u8> {
    let [high, low] = pair else { return None };
    let high = char::from(*high).to_digit(16)?;
    let low = char::from(*low).to_digit(16)?;
    u8::try_from(high * 16 + low).ok()
}

fn text_of_hex(digits: &str) -> Option<String> {
    let bytes = digits
        .as_bytes()
        .chunks(2)
        .map(byte)
        .collect::<Option<_>>()?;
    String::from_utf8(bytes).ok()
}

impl Question {
    fn parse(line: &str) -> Option<Question> {
        let (asked, digits) = line.rsplit_once(' ')?;
        let (flags, writing) = match asked.split(' ').collect::<Vec<_>>()[..] {
            [flags] => (flags, None),
            [policy, line_end, flags] => {
                let option = WriteOption {
                    escape_policy: policy_of_name(policy)?,
                    line_separator: separator_of_name(line_end)?,
                    ..WriteOption::default()
                };
                (flags, Some(option))
            }
            _ => return None,
        };
        Some(Question {
            text: text_of_hex(digits)?,
            reading: reading_of_flags(flags)?,
            writing,
        })
    }
}

fn push_hex(line: &mut String, bytes: &[u8]) {
    const DIGITS: &[u8; 16] = b"0123456789abcdef";
    for byte in bytes {
        line.push(DIGITS[usize::from(byte / 16)].into());
        line.push(DIGITS[usize::from(byte % 16)].into());
    }
}

fn push_section(line: &mut String, name: Option<&str>, properties: &Properties) {
    match name {
        None => line.push_str(" G"),
        Some(name) => {
            line.push_str(" S");
            push_hex(line, name.as_bytes());
        }
    }
    for (key, value) in properties.iter() {
        line.push(' ');
        push_hex(line, key.as_bytes());
        line.push('=');
        push_hex(line, value.as_bytes());
    }
}

fn document_line(document: &Ini) -> String {
    let mut line = String::from("ok");
    for (name, properties) in document.iter() {
        push_section(&mut line, name, properties);
    }
    line
}

fn written_line(document: &Ini, option: WriteOption) -> io::Result<String> {
    let mut written = Vec::new();
    document.write_to_opt(&mut written, option)?;
    let mut line = String::from("written ");
    push_hex(&mut line, &written);
    Ok(line)
}

fn answer(question: Question) -> io::Result<String> {
    match Ini::load_from_str_opt(&question.text, question.reading) {
        Err(refusal) => Ok(format!("err {refusal}")),
        Ok(document) => match question.writing {
            None => Ok(document_line(&document)),
            Some(option) => written_line(&document, option),
        },
    }
}

/// Answers every line, up to one that is no question, whose number is the result.
fn answer_all(input: impl BufRead, output: &mut impl Write) -> io::Result<Option<usize>> {
    for (number, line) in input.lines().enumerate() {
        match Question::parse(&line?) {
            None => return Ok(Some(number + 1)),
            Some(question) => writeln!(output, "{}", answer(question)?)?,
        }
    }
    Ok(None)
}

fn main() -> io::Result<ExitCode> {
    let mut output = BufWriter::new(io::stdout().lock());
    let stopped = answer_all(io::stdin().lock(), &mut output)?;
    output.flush()?;
    Ok(match stopped {
        None => ExitCode::SUCCESS,
        Some(number) => {
            eprintln!("line {number} is no question");
            ExitCode::from(2)
        }
    })
}
