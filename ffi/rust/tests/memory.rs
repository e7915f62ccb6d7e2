//! Calls that ask for memory. checks/ffi runs it with each request refused in turn, and under valgrind. Its status is 0 if
//! each call returned what is wanted, 3 if one of them ran out of memory, and 1 if one returned anything else.
use jiter_c::{Document, Error, Mode, Parser, Reader};
use std::process::ExitCode;

const TEXT: &str = r#"{"k\"":[1,"t\n",{},9223372036854775808],"l":"0123456789012345678901234567890123456789"}"#;
const PRINTED: &str = r#"{"k\"":[1,"t\u000a",{},9223372036854775808],"l":"0123456789012345678901234567890123456789"}"#;

fn document() -> Result<bool, Error> {
    let document = Document::parse(TEXT.as_bytes())?;
    let found = document.print("", &[])? == PRINTED && document.text("/k\"/1", &[])? == "t\n";
    Ok(found && document.key("", &[], 0)? == "k\"")
}

fn walk() -> Result<bool, Error> {
    let walk = Document::parse(TEXT.as_bytes())?.walk()?;
    let texts: Vec<_> = walk.root().children().filter_map(|it| it.text()).collect();
    Ok(texts == ["0123456789012345678901234567890123456789"] && walk.root().children().count() == 2)
}

fn chunks() -> Result<bool, Error> {
    let mut parser = Parser::new(false, Mode::On)?;
    for chunk in TEXT.as_bytes().chunks(7) {
        parser.push(chunk)?;
        parser.value()?;
    }
    let whole = parser.position() == TEXT.len();
    if let Some(error) = parser.error() {
        return Err(error);
    }
    Ok(parser.finish()?.print("", &[])? == PRINTED && whole)
}

fn repeated() -> Result<bool, Error> {
    match Document::parse_with(br#"{"a": 1, "\u0061": [2]}"#, false, Mode::Off, true) {
        Err(error) if !error.is_memory() => Ok(error.to_string() == "Detected duplicate key \"a\" at index 18"),
        Err(error) => Err(error),
        Ok(_) => Ok(false),
    }
}

fn reader() -> Result<bool, Error> {
    let mut reader = Reader::new(TEXT.as_bytes());
    let key = reader.object()?.as_deref() == Some("k\"");
    let items = reader.array()? && reader.skip().is_ok() && reader.item()?;
    Ok(reader.string()? == "t\n" && key && items)
}

fn main() -> ExitCode {
    let mut status = 0;
    for call in [document, walk, chunks, repeated, reader] {
        status = match call() {
            Ok(true) => status,
            Err(error) if error.is_memory() && error.to_string() == "out of memory" => 3,
            _ => return ExitCode::from(1),
        };
    }
    ExitCode::from(status)
}
