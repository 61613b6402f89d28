use super::json::Json;
use super::scripted_node::unhex;
use crate::error::Fault;
use crate::wire::{decode_body, decode_length, encode_ask, Answer, Command, Row, Told, Verdict};
use crate::Error;

fn vectors(list: &str) -> Vec<Json> {
    let text = include_str!("../../../vectors.json");
    match Json::parse(text) {
        Json::Object(mut fields) => match fields.remove(list) {
            Some(Json::Array(items)) => items,
            other => panic!("{list} is {other:?}"),
        },
        other => panic!("{other:?} is no object"),
    }
}

fn command_of(vector: &Json) -> Command {
    match vector.text("command") {
        "store" => Command::store(&unhex(vector.text("argument"))).expect("a text"),
        "collect" => Command::Collect,
        "max" => Command::Max(vector.number("argument")),
        "read_max" => Command::ReadMax,
        "flag" => Command::Flag,
        "read_flag" => Command::ReadFlag,
        "add" => Command::Add(u32_of(vector, "argument")),
        "read_set" => Command::ReadSet,
        other => panic!("{other} is no command"),
    }
}

fn u32_of(vector: &Json, name: &str) -> u32 {
    vector.number(name).try_into().expect("32 bits")
}

fn set_of(vector: &Json) -> Vec<u32> {
    let numbers = vector.array("set").iter();
    numbers
        .map(|number| match number {
            Json::Text(text) => text.parse().expect("a number"),
            other => panic!("{other:?} is no text"),
        })
        .collect()
}

fn row_of(vector: &Json) -> Row {
    Row {
        node: u32_of(vector, "node"),
        number: vector.number("number"),
        text: unhex(vector.text("text")),
        max: vector.number("max"),
        flag: vector.text("flag") == "1",
        set: set_of(vector),
    }
}

fn answer_of(vector: &Json) -> Answer {
    match vector.text("answer") {
        "Stored" => Answer::Stored,
        "Seen" => Answer::Seen(vector.array("rows").iter().map(row_of).collect()),
        "Max" => Answer::Max(vector.number("max")),
        "Flag" => Answer::Flag(vector.text("flag") == "1"),
        "Set" => Answer::Set(set_of(vector)),
        other => panic!("{other} is no answer"),
    }
}

fn decode(frame: &[u8]) -> Result<Told, Fault> {
    let (prefix, body) = frame.split_at(4);
    let length = decode_length(prefix.try_into().expect("four bytes"))?;
    assert_eq!(length, body.len());
    decode_body(body)
}

#[test]
fn asks() {
    for vector in vectors("asks") {
        let command = command_of(&vector);
        let frame = encode_ask(vector.number("session"), vector.number("request"), &command);
        assert_eq!(
            frame,
            unhex(vector.text("frame")),
            "{}",
            vector.text("name")
        );
    }
}

#[test]
fn replies() {
    for vector in vectors("replies") {
        let told = Told {
            session: vector.number("session"),
            request: vector.number("request"),
            verdict: Verdict::Answered(answer_of(&vector)),
        };
        let frame = unhex(vector.text("frame"));
        assert_eq!(decode(&frame), Ok(told), "{}", vector.text("name"));
    }
}

#[test]
fn refusals() {
    for vector in vectors("refusals") {
        let told = decode(&unhex(vector.text("frame"))).expect("a frame");
        assert_eq!((told.session, told.request), (7, 1));
        let Verdict::Refused { refusal, carried } = told.verdict else {
            panic!("{} is refused", vector.text("name"));
        };
        assert_eq!(u64::from(refusal.number()), vector.number("number"));
        assert_eq!(format!("{refusal:?}"), vector.text("name"));
        assert_eq!(carried, vector.number("carried"));
    }
}

#[test]
fn malformed() {
    for vector in vectors("malformed") {
        let fault = decode(&unhex(vector.text("frame"))).expect_err(vector.text("name"));
        assert_eq!(
            format!("{fault:?}"),
            vector.text("fault"),
            "{}",
            vector.text("name")
        );
    }
}

#[test]
fn each_reply_and_each_refusal_cut_short() {
    for vector in vectors("replies").iter().chain(&vectors("refusals")) {
        let body = unhex(vector.text("frame")).split_off(4);
        for length in 0..body.len() {
            assert_eq!(decode_body(&body[..length]), Err(Fault::Short));
        }
    }
}

#[test]
fn each_byte_changed() {
    for vector in vectors("replies") {
        let body = unhex(vector.text("frame")).split_off(4);
        for place in 0..body.len() {
            for byte in 0..=u8::MAX {
                let mut changed = body.clone();
                changed[place] = byte;
                // A frame or a fault, and no panic.
                let _ = decode_body(&changed);
            }
        }
    }
}

#[test]
fn a_text_that_is_too_long() {
    assert!(matches!(
        Command::store(&[0; 65]),
        Err(Error::InvalidArgument(_))
    ));
}
