// Answers for the script beside, over the Rust crate jiter. It reads documents from standard input, each after a line
// `MODE NAMES LENGTH`, and writes a line for each: `=` and its value, or `!` and the description of its error.
use jiter::{JsonValue, PartialMode};
use std::fmt::Write as _;
use std::io::{self, BufRead, BufReader, Read, Write};

fn string(out: &mut String, text: &str) {
    out.push('"');
    for c in text.chars() {
        match c {
            '"' | '\\' => out.extend(['\\', c]),
            '\0'..='\x1f' => write!(out, "\\u{:04x}", c as u32).unwrap(),
            _ => out.push(c),
        }
    }
    out.push('"');
}

fn value(out: &mut String, it: &JsonValue) {
    match it {
        JsonValue::Null => out.push_str("null"),
        JsonValue::Bool(it) => write!(out, "{it}").unwrap(),
        JsonValue::Int(it) => write!(out, "{it}").unwrap(),
        JsonValue::BigInt(it) => write!(out, "{it}").unwrap(),
        JsonValue::Float(it) if it.is_nan() => out.push_str("NaN"),
        JsonValue::Float(it) if it.is_infinite() => out.push_str(if *it > 0.0 { "Infinity" } else { "-Infinity" }),
        JsonValue::Float(it) => write!(out, "{it:?}").unwrap(),
        JsonValue::Str(it) => string(out, it),
        JsonValue::Array(items) => {
            out.push('[');
            for (at, it) in items.iter().enumerate() {
                out.push_str(if at > 0 { "," } else { "" });
                value(out, it);
            }
            out.push(']');
        }
        JsonValue::Object(members) => {
            out.push('{');
            for (at, (key, it)) in members.iter().enumerate() {
                out.push_str(if at > 0 { "," } else { "" });
                string(out, key);
                out.push(':');
                value(out, it);
            }
            out.push('}');
        }
    }
}

fn main() -> io::Result<()> {
    let mut input = BufReader::new(io::stdin());
    let mut head = String::new();
    while input.read_line(&mut head)? > 0 {
        let words: Vec<&str> = head.split_whitespace().collect();
        let mode = match words[0] {
            "on" => PartialMode::On,
            "trailing-strings" => PartialMode::TrailingStrings,
            _ => PartialMode::Off,
        };
        let mut document = vec![0; words[2].parse().unwrap()];
        input.read_exact(&mut document)?;
        let mut line = String::from("=");
        match JsonValue::parse_with_config(&document, words[1] == "1", mode) {
            Ok(it) => value(&mut line, &it),
            Err(error) => line = format!("!{}", error.description(&document)),
        }
        writeln!(io::stdout(), "{line}")?;
        head.clear();
    }
    Ok(())
}
