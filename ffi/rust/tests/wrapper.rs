use jiter_c::{Document, Error, Mode, Node, Number, Parser, Reader, Result, Type, Value, Walk};
use std::borrow::Cow;

/// A text of 100 bytes, which is longer than any first capacity of the wrapper that a text has.
const LONG: &str = "0123456789012345678901234567890123456789012345678901234567890123456789012345678901234567890123456789";

#[test]
fn reads_step_by_step() -> Result<()> {
    let mut reader = Reader::new(br#" {"a": [1, 2.5, 9223372036854775808], "\u0062": "x\ty"} "#);
    assert!(matches!(reader.object()?, Some(Cow::Borrowed("a"))));
    assert_eq!(reader.peek()?, Some(Type::Array));
    assert!(reader.array()?);
    assert_eq!(reader.number()?, Number::Int(1));
    assert!(reader.item()?);
    assert_eq!(reader.number()?, Number::Float(2.5, "2.5"));
    assert!(reader.item()?);
    assert_eq!(reader.number()?, Number::BigInt("9223372036854775808"));
    assert!(!reader.item()?);
    assert!(matches!(reader.key()?, Some(Cow::Owned(key)) if key == "b"));
    let text = reader.string()?;
    assert_eq!(text, "x\ty");
    assert_eq!(reader.key()?, None);
    reader.finish()
}

#[test]
fn peeks_at_each_type() -> Result<()> {
    let types = [
        ("null", Type::Null),
        ("true", Type::Bool),
        ("1", Type::Number),
        ("-2.5", Type::Number),
        ("\"a\"", Type::String),
        ("[1]", Type::Array),
        ("{}", Type::Object),
    ];
    for (text, kind) in types {
        assert_eq!(Reader::new(text.as_bytes()).peek()?, Some(kind), "{text}");
    }
    assert_eq!(Reader::new(b"x").peek()?, None);
    let mut reader = Reader::new(b"  7");
    reader.peek()?;
    assert_eq!(reader.index(), 2);
    Ok(())
}

#[test]
fn reads_scalars() -> Result<()> {
    let mut reader = Reader::new(b"[null, true, false, 2.5, -7]");
    assert!(reader.array()?);
    reader.null()?;
    assert_eq!(reader.index(), 5);
    assert!(reader.item()? && reader.bool()? && reader.item()? && !reader.bool()? && reader.item()?);
    assert_eq!(reader.double()?, 2.5);
    assert!(reader.item()?);
    assert_eq!(reader.double()?, -7.0);
    assert!(!reader.item()?);
    reader.finish()?;
    for (read, wanted) in [
        (Reader::new(b"1").null().map(drop), "expected null but found int at index 0"),
        (Reader::new(b"1").bool().map(drop), "expected bool but found int at index 0"),
        (Reader::new(b"[]").string().map(drop), "expected string but found array at index 0"),
        (Reader::new(b"[]").object().map(drop), "expected object but found array at index 0"),
        (Reader::new(b"{}").array().map(drop), "expected array but found object at index 0"),
        (Reader::new(b"1 2").finish(), "trailing characters at index 0"),
    ] {
        assert_eq!(read.unwrap_err().to_string(), wanted);
    }
    Ok(())
}

#[test]
fn skips_values() -> Result<()> {
    let mut reader = Reader::new(br#"[{"a": [1, "]"]}, 2]"#);
    assert!(reader.array()?);
    reader.skip()?;
    assert_eq!(reader.index(), 16);
    assert!(reader.item()?);
    assert_eq!(reader.number()?, Number::Int(2));
    let error = Reader::new(b"[1,]").skip().unwrap_err();
    assert_eq!((error.kind, error.index), (18, 3));
    Ok(())
}

#[test]
fn non_finite_numbers_are_allowed_or_not() -> Result<()> {
    assert_eq!(Reader::new(b"-Infinity").allow_inf_nan().double()?, f64::NEG_INFINITY);
    assert!(matches!(Reader::new(b"NaN").allow_inf_nan().number()?, Number::Float(value, "NaN") if value.is_nan()));
    assert!(Reader::new(b"-Infinity").double().is_err() && Reader::new(b"[NaN]").skip().is_err());
    assert_eq!(Document::parse_with(b"[NaN]", true, Mode::Off, false)?.print("", &[])?, "[NaN]");
    assert!(Document::parse_with(b"[NaN]", false, Mode::Off, false).is_err() && Document::parse(b"[NaN]").is_err());
    for allowed in [true, false] {
        let mut parser = Parser::new(allowed, Mode::Off)?;
        parser.push(b"[NaN]")?;
        assert_eq!(parser.finish().is_ok(), allowed);
    }
    Ok(())
}

#[test]
fn strings_are_utf8_and_may_be_long() -> Result<()> {
    assert_eq!(LONG.len(), 100);
    let text = format!(r#"{{"{LONG}": "{LONG}", "\n{LONG}": "\n{LONG}", "": ""}}"#);
    let mut reader = Reader::new(text.as_bytes());
    assert!(matches!(reader.object()?, Some(Cow::Borrowed(LONG))));
    assert!(matches!(reader.string()?, Cow::Borrowed(LONG)));
    assert_eq!(reader.key()?.unwrap(), format!("\n{LONG}"));
    assert_eq!(reader.string()?, format!("\n{LONG}"));
    assert_eq!(reader.key()?.unwrap(), "");
    assert_eq!(reader.string()?, "");
    assert_eq!(reader.key()?, None);
    reader.finish()?;
    for bytes in [b"{\"\xff\": 1}".as_slice(), b"{\"\\n\xff\": 1}"] {
        assert_eq!(Reader::new(bytes).object().unwrap_err().kind, 14);
    }
    for bytes in [b"\"\xff\"".as_slice(), b"\"\\n\xff\""] {
        assert_eq!(Reader::new(bytes).string().unwrap_err().kind, 14);
    }
    Ok(())
}

#[test]
fn errors_have_their_place() {
    let bytes = b"[1,\n 2,]";
    let error = Document::parse(bytes).err().unwrap();
    assert_eq!((error.kind, error.index, error.line_and_column(bytes)), (18, 7, (2, 4)));
    assert_eq!(error.to_string(), "trailing comma at index 7");
    assert!(!error.is_memory() && !error.is_absent());
}

#[test]
fn looks_into_a_document() -> Result<()> {
    let document = Document::parse(br#"{"a": {"b": [true, "c", 1e3, null]}, "d": -7}"#)?;
    let list = document.at("/a/b", &[]).unwrap();
    assert_eq!((list.kind, list.length), (Type::Array, 4));
    assert!(document.at("/a/b/0", &[]).unwrap().truth);
    assert_eq!(document.text("/a/b", &[1])?, "c");
    assert_eq!(document.double("", &[0, 0, 2])?, 1000.0);
    assert_eq!(document.at("/d", &[]).unwrap().integer, -7);
    assert_eq!(document.key("", &[], 1)?, "d");
    assert_eq!(document.at("/x", &[]), None);
    assert_eq!(document.print("/a", &[])?, r#"{"b":[true,"c",1e3,null]}"#);
    Ok(())
}

#[test]
fn walks_through_a_document() -> Result<()> {
    fn shown(node: Node<'_>) -> String {
        let parts: Vec<_> = node.children().map(shown).collect();
        let key = node.key().map_or(String::new(), |it| format!("{it}:"));
        let value = match node.kind() {
            Type::Array => format!("[{}]", parts.join(",")),
            Type::Object => format!("{{{}}}", parts.join(",")),
            Type::Int => node.value().integer.to_string(),
            Type::Null | Type::Bool => format!("{:?}{}", node.kind(), node.value().truth),
            _ => format!("{}{:?}", node.text().unwrap(), node.double()),
        };
        assert_eq!(parts.len(), if matches!(node.kind(), Type::Array | Type::Object) { node.value().length } else { 0 });
        key + &value
    }
    let text = br#"{"a": [null, true, -7], "": {"\u0062": "c\td"}, "e": [2.50, 9223372036854775808, [], {}]}"#;
    let walk = Document::parse(text)?.walk()?;
    let wanted = "{a:[Nullfalse,Booltrue,-7],:{b:c\tdNone},e:[2.50Some(2.5),9223372036854775808Some(9.223372036854775807e18),[],{}]}";
    assert_eq!(shown(walk.root()), wanted.replace("9.223372036854775807e18", "9.223372036854776e18"));
    let last = walk.root().children().last().unwrap();
    assert_eq!((last.key(), last.next_sibling().is_none()), (Some("e"), true));
    assert_eq!((last.first_child().unwrap().first_child().is_none(), walk.root().key()), (true, None));
    let moved = std::thread::spawn(move || shown(walk.root())).join().unwrap();
    assert_eq!(moved.len(), wanted.len() - 3);
    Ok(())
}

#[test]
fn a_wrong_pointer_has_words() -> Result<()> {
    let document = Document::parse(br#"{"a": 1, "~": 2}"#)?;
    let told = |pointer: &str| document.print(pointer, &[]).unwrap_err().to_string();
    assert_eq!(told("a"), r#""a" is not a JSON Pointer: it must be empty or begin with `/`"#);
    assert_eq!(told("/~2"), r#""/~2" is not a JSON Pointer: a `~` must be followed by `0` or `1`"#);
    assert_eq!(told("/~"), r#""/~" is not a JSON Pointer: a `~` must be followed by `0` or `1`"#);
    assert_eq!(told("/b"), r#"the document has no such value at "/b", steps []"#);
    assert_eq!(document.print("/~0", &[])?, "2");
    Ok(())
}

#[test]
fn handles_are_send() {
    fn is_send<T: Send>() {}
    is_send::<Document>();
    is_send::<Walk>();
    is_send::<Parser>();
    fn is_sync<T: Sync>() {}
    is_sync::<Walk>();
}

#[test]
fn values_have_their_types() -> Result<()> {
    let document = Document::parse(br#"[null, false, -7, 2.50, 9223372036854775808, "abc", [1, 2], {"k": 1}]"#)?;
    let value = |kind, integer, length| Some(Value { kind, truth: false, integer, length });
    for (step, wanted) in [
        value(Type::Null, 0, 0),
        value(Type::Bool, 0, 0),
        value(Type::Int, -7, 0),
        value(Type::Float, 0, 4),
        value(Type::BigInt, 0, 19),
        value(Type::String, 0, 3),
        value(Type::Array, 0, 2),
        value(Type::Object, 0, 1),
        None,
    ]
    .into_iter()
    .enumerate()
    {
        assert_eq!(document.at("", &[step]), wanted, "{step}");
    }
    assert_eq!((document.text("/3", &[])?, document.text("/4", &[])?), ("2.50".into(), "9223372036854775808".into()));
    assert_eq!((document.double("/2", &[])?, document.double("/4", &[])?), (-7.0, 9223372036854775808.0));
    Ok(())
}

#[test]
fn long_texts_are_complete() -> Result<()> {
    for text in [LONG.to_string(), LONG[..64].to_string(), LONG[..65].to_string(), LONG.repeat(50)] {
        let document = Document::parse(format!(r#"{{"{text}": "{text}"}}"#).as_bytes())?;
        assert_eq!((document.key("", &[], 0)?, document.text("", &[0])?), (text.clone(), text.clone()));
        assert_eq!(document.print("", &[0])?, format!("\"{text}\""));
        let mut parser = Parser::new(false, Mode::On)?;
        parser.push(format!("[\"{text}\"").as_bytes())?;
        assert_eq!(parser.value()?, format!("[\"{text}\"]"));
    }
    Ok(())
}

#[test]
fn a_missing_place_has_words() -> Result<()> {
    let document = Document::parse(br#"{"a": [1]}"#)?;
    let told = |error: Error| {
        assert!(error.is_absent() && !error.is_memory());
        error.to_string()
    };
    assert_eq!(told(document.print("/b", &[]).unwrap_err()), r#"the document has no such value at "/b", steps []"#);
    assert_eq!(told(document.text("/a", &[]).unwrap_err()), r#"the document has no such value at "/a", steps []"#);
    assert_eq!(told(document.key("/a", &[0], 3).unwrap_err()), r#"the document has no such value at "/a", steps [0]"#);
    assert_eq!(told(document.double("/a", &[]).unwrap_err()), r#"the document has no such value at "/a", steps []"#);
    Ok(())
}

#[test]
fn rejects_a_repeated_key() {
    let error = Document::parse_with(br#"{"a": 1, "\u0061": 2}"#, false, Mode::Off, true).err().unwrap();
    assert_eq!((error.kind, error.index), (23, 18));
    assert_eq!(error.to_string(), "Detected duplicate key \"a\" at index 18");
    assert!(Document::parse(br#"{"a": 1, "a": 2}"#).is_ok());
}

#[test]
fn truncated_documents_are_read_by_mode() -> Result<()> {
    let text = br#"[1, {"a": "x"#;
    assert_eq!(Document::parse_with(text, false, Mode::Off, false).err().unwrap().kind, 4);
    for (mode, wanted) in [(Mode::On, "[1,{}]"), (Mode::TrailingStrings, r#"[1,{"a":"x"}]"#)] {
        for unique in [false, true] {
            assert_eq!(Document::parse_with(text, false, mode, unique)?.print("", &[])?, wanted);
        }
        let mut parser = Parser::new(false, mode)?;
        parser.push(text)?;
        assert_eq!(parser.value()?, wanted);
    }
    Ok(())
}

#[test]
fn takes_chunks() -> Result<()> {
    let mut parser = Parser::new(false, Mode::TrailingStrings)?;
    parser.push(b"[12, \"a ")?;
    assert_eq!(parser.value()?, "[12,\"a \"]");
    assert_eq!(parser.error().unwrap().kind, 4);
    parser.push(b"b\"]")?;
    assert_eq!((parser.error(), parser.position()), (None, 11));
    assert_eq!(parser.finish()?.text("/1", &[])?, "a b");
    let mut parser = Parser::new(false, Mode::Off)?;
    parser.push(b"[1,]")?;
    assert_eq!(parser.value().unwrap_err().to_string(), "trailing comma at index 3");
    assert_eq!(parser.finish().err().unwrap().to_string(), "trailing comma at index 3");
    Ok(())
}

#[test]
fn handles_move_between_threads() -> Result<()> {
    let document = Document::parse(br#"{"a": "b"}"#)?;
    let mut parser = Parser::new(false, Mode::Off)?;
    parser.push(b"[1, ")?;
    let mut reader = Reader::new(b"[1]");
    let other = std::thread::spawn(move || {
        parser.push(b"2]").and_then(|()| parser.finish()).and_then(|it| Ok((it, document.text("/a", &[])?, reader.skip()?)))
    });
    let (list, text, ()) = other.join().unwrap()?;
    assert_eq!((list.print("", &[])?, text), ("[1,2]".into(), "b".into()));
    Ok(())
}
