//! The pictures of the flows.

mod common;
use common::FLOWS;
use second::draw::picture;
use second::flows::published;
use second::refusal::Refusal;

/// The picture of a flow by its words.
fn drawn(words: &str) -> String {
    picture(words).expect("a flow")
}

#[test]
fn each_kind_of_a_flow_is_drawn_once() {
    for flow in published() {
        let picture = drawn(&flow.words()[0]);
        for layout in &flow.layouts {
            let bar = format!(">{}</text>", String::from_utf8_lossy(&layout.kind));
            assert_eq!(picture.matches(&bar).count(), 1, "{} in {}", bar, flow.name);
        }
    }
}

#[test]
fn the_sets_are_named_as_document_01_has_them() {
    let counts = |flow: &str, caption: &str| drawn(flow).matches(caption).count();
    assert_eq!(counts("P0181002", "one or more"), 2);
    assert_eq!(counts("P0181002", "any number"), 1);
    assert_eq!(counts("P0012001", "either"), 1);
    assert_eq!(counts("P0012001", "any number"), 2);
    assert_eq!(counts("P0138001", "any number"), 0);
}

#[test]
fn the_key_of_sp7_alone_may_repeat() {
    for flow in FLOWS {
        let repeating = drawn(flow).matches("key: field 5 within SUB, may repeat<").count();
        assert_eq!(repeating, usize::from(flow == "P0164001"), "{}", flow);
        assert_eq!(drawn(flow).matches("may repeat").count(), repeating, "{}", flow);
    }
}

#[test]
fn an_edition_changes_the_title_and_the_subject_header_alone() {
    let (older, newer) = (drawn("P0133001"), drawn("P0133001 711"));
    assert!(older.contains(">text(1) =H, text(1) =M, text(8), date, text(1) =M<"));
    assert!(newer.contains(">text(1) =M, text(8), date, text(1) =M<"));
    assert_eq!(
        newer.replace("P0133001 711", "P0133001").replace(">text(1) =M", ">text(1) =H, text(1) =M"),
        older
    );
    assert_eq!(drawn("P0133001 533").replace("P0133001 533", "P0133001"), older);
    for flow in FLOWS.iter().filter(|flow| **flow != "P0133001") {
        let words = format!("{} 711", flow);
        assert_eq!(drawn(&words).replace(&words, flow), drawn(flow));
    }
    assert_eq!(picture("P0133001 712"), Err(Refusal::whole(21)));
    assert_eq!(picture("P0133002"), Err(Refusal::whole(1)));
}
