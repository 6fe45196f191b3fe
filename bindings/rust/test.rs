//! `rustc --test --edition 2021 test.rs -o tests && PATCHSARD=path/to/patchsard ./tests`.
mod client;

use client::{quoted, Patchsard};

const BASE: &str = "https://example.com/order";
const OPEN: &str = r##"{"call":"open","documents":[["https://example.com/order",{"$ref":"#/$defs/a%22b","$defs":{"a\"b":{"type":"string"}}}]]}"##;

fn started() -> Patchsard {
    let path = std::env::var("PATCHSARD").unwrap_or("patchsard".to_owned());
    let mut patchsard = Patchsard::start(&path).expect("the program starts");
    let opened = patchsard.ask(OPEN).expect("an answer");
    assert_eq!(
        opened,
        r#"{"result":{"documents":["https://example.com/order"],"given":[0],"registry":0}}"#
    );
    patchsard
}

#[test]
fn a_look_up() {
    let mut patchsard = started();
    for reference in ["#/$defs/a\"b", "#/$defs/a%22b"] {
        let found = patchsard.lookup(0, BASE, reference).expect("an answer");
        assert!(
            found
                .contains(r#""document":0,"draft":"2020-12","pointer":"/$defs/a\"b","registry":0"#),
            "{found}"
        );
        assert!(found.ends_with(r#""value":{"type":"string"}}}"#), "{found}");
    }
}

#[test]
fn errors_leave_the_registry_open() {
    let mut patchsard = started();
    let missing = patchsard.lookup(0, BASE, "#/$defs/b").expect("an answer");
    assert!(
        missing.contains(r#""name":"PointerToNowhere""#),
        "{missing}"
    );
    let wrong = patchsard.ask("{").expect("an answer");
    assert!(wrong.contains(r#""name":"NotJson""#), "{wrong}");
    let found = patchsard.lookup(0, BASE, "#").expect("an answer");
    assert!(found.starts_with(r#"{"result":"#), "{found}");
}

#[test]
fn texts_with_quotes() {
    assert_eq!(quoted("a\"\\\n\u{e9}"), "\"a\\\"\\\\\\u000a\u{e9}\"");
}
