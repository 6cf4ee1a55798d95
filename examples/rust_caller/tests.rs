//! What the wrapper gives and refuses.

use crate::pressclip::{explain, explain_line, words, Found, Hit, Monitor, Refused};

fn monitor(queries: &[(&str, &str)]) -> Monitor {
    let mut monitor = Monitor::open(true).unwrap();
    for (id, query) in queries {
        monitor.register(id, query, None).unwrap();
    }
    monitor
}

fn hit(field: &str, position: u64) -> Hit {
    Hit {
        field: field.to_string(),
        position,
    }
}

#[test]
fn found_are_all_queries_that_hold_with_their_hits() {
    let monitor = monitor(&[
        ("z", "title:ré"),
        ("a", "+tea pric*"),
        ("m", "coffee"),
        ("k", "*:* -coffee"),
    ]);
    let found = monitor
        .match_article("a1", &[("text", "Tea prices"), ("title", "Ré")])
        .unwrap();
    let due = [
        ("a", vec![hit("text", 0), hit("text", 1)]),
        ("k", vec![]),
        ("z", vec![hit("title", 0)]),
    ];
    assert_eq!(
        found,
        due.map(|(query, hits)| Found {
            query: query.to_string(),
            hits
        })
    );
}

#[test]
fn an_article_of_no_fields_is_matched() {
    assert_eq!(
        monitor(&[("q", "tea")]).match_article("a1", &[]),
        Ok(vec![])
    );
}

#[test]
fn changes_are_counted() {
    let mut monitor = monitor(&[("q", "tea"), ("r", "coffee"), ("q", "milk")]);
    assert_eq!(monitor.count(), Ok(2));
    assert_eq!(
        (monitor.delete("q"), monitor.delete("q")),
        (Ok(true), Ok(false))
    );
    assert_eq!(
        monitor.line(br#"{"op":"count"}"#).unwrap(),
        b"{\"count\":1,\"line\":1}\n"
    );
    assert_eq!(monitor.line(b" "), Ok(vec![]));
}

#[test]
fn refusals_come_by_their_names() {
    let mut monitor = monitor(&[]);
    assert_eq!(monitor.register("", "tea", None), Err(Refused::Limit));
    assert_eq!(monitor.register("q", "the (tea", None), Err(Refused::Query));
    assert_eq!(
        monitor.register("q", "tea", Some("post")),
        Err(Refused::Listener)
    );
    assert_eq!(monitor.register("q", "", Some("")), Err(Refused::Query));
    assert_eq!(
        monitor.match_article("a1", &[("no name", "tea")]),
        Err(Refused::Limit)
    );
    assert_eq!(
        monitor.match_article("a1", &vec![("text", "tea"); 1_000_001]),
        Err(Refused::Size)
    );
    assert_eq!(monitor.line(b"{}\n"), Err(Refused::Feed));
    assert_eq!(monitor.count(), Ok(0));
}

#[test]
fn refusals_are_shown_as_words() {
    let words =
        [Refused::NoMemory, Refused::Size, Refused::Unknown].map(|refused| refused.to_string());
    assert_eq!(words, ["memory", "size", "unknown"]);
}

#[test]
fn a_query_is_explained_or_has_a_fault() {
    let fault = r#"{"at":7,"fault":"Structure","says":"Something is missing at the end: a word, a phrase, or a closing parenthesis."}"#;
    assert_eq!(explain("tea AND").unwrap(), fault);
    let told = explain("tea AND coffee").unwrap();
    assert!(
        told.contains(r#""reads":"+text:tea +text:coffee""#),
        "{told}"
    );
}

#[test]
fn a_line_is_taken_or_refused() {
    assert_eq!(
        explain_line(br#"{"op":"count"}"#).unwrap(),
        r#"{"refused":null}"#
    );
    let told = explain_line(b"\xff").unwrap();
    assert!(told.starts_with(r#"{"at":0,"refused":"json","#), "{told}");
    assert_eq!(explain_line(b"{}\n"), Err(Refused::Feed));
}

#[test]
fn words_stand_in_their_text() {
    let text = "Can't stop, Straße";
    let found: Vec<&str> = words(text)
        .unwrap()
        .into_iter()
        .map(|span| &text[span])
        .collect();
    assert_eq!(found, ["Can't", "stop", "Straße"]);
    assert_eq!(words(""), Ok(vec![]));
}

#[test]
fn a_monitor_goes_to_another_thread() {
    let monitor = monitor(&[("q", "tea")]);
    assert_eq!(
        std::thread::spawn(move || monitor.count()).join().unwrap(),
        Ok(1)
    );
}
