//! The crate over the library, on documents of the repository.
use std::error::Error;

const FIRST: &[u8] = include_bytes!("../../../examples/first.json");

#[test]
fn the_first_example_is_printed() -> Result<(), Box<dyn Error>> {
    assert_eq!(gamhilon::render_text(FIRST)?, include_str!("../../../examples/first.txt"));
    assert!(gamhilon::render_json(FIRST)?.starts_with("{\"bibliography\":"));
    Ok(())
}

#[test]
fn what_is_no_document_is_refused() {
    let refusal = gamhilon::render_text(br#"{"styles": {"s": 5}}"#).unwrap_err();
    assert_eq!(refusal, gamhilon::Refusal::Document(Box::new(fault("/styles/s", "an object"))));
    assert_eq!(refusal.to_string(), "/styles/s: a number; wanted is an object");
    assert_eq!(refusal.status(), 2);
    let refusal = gamhilon::render_json(b"{").unwrap_err();
    assert!(refusal.to_string().starts_with("no JSON"), "{refusal}");
}

/// A number that stands where something else is wanted.
fn fault(pointer: &str, wanted: &str) -> gamhilon::Fault {
    let [pointer, found, wanted] = [pointer, "a number", wanted].map(str::to_string);
    gamhilon::Fault { pointer, found, wanted }
}

#[test]
fn a_fault_has_its_place() -> Result<(), Box<dyn Error>> {
    let told = gamhilon::find_fault(br#"{"styles": {"s": 5}}"#)?;
    assert_eq!(told, Some(fault("/styles/s", "an object")));
    assert_eq!(gamhilon::find_fault(FIRST)?, None);
    Ok(())
}

const DRIVEN: &str = r#"{"styles":{"s":{"citation":{}}},"entries":[{"key":"a"}],
    "requests":[{"style":"s","items":[{"entry":"a"}]}],"bibliography":{"style":"s"},"written":[]}"#;

#[test]
fn a_driven_document_tells_what_is_missing() -> Result<(), Box<dyn Error>> {
    let outcome = gamhilon::drive(DRIVEN.as_bytes())?;
    assert!(outcome.starts_with("{\"missing\":[{"), "{outcome}");
    assert_eq!(gamhilon::find_driven_fault(DRIVEN.as_bytes())?, None);
    Ok(())
}

#[test]
fn a_driven_document_that_is_wrong_has_a_fault() -> Result<(), Box<dyn Error>> {
    let wrong = DRIVEN.replace("\"key\":\"a\"", "\"key\":5");
    let wanted = fault("/entries/0/key", "a text");
    assert_eq!(gamhilon::find_driven_fault(wrong.as_bytes())?, Some(wanted.clone()));
    let refusal = gamhilon::Refusal::Document(Box::new(wanted));
    assert_eq!(gamhilon::drive(wrong.as_bytes()), Err(refusal));
    Ok(())
}

#[test]
fn a_ring_has_its_place() {
    let document = br#"{"styles": {"s": {"citation": {"elements": []}, "macros": [
        {"name": "a", "children": []},
        {"name": "b", "children": [{"kind": "text", "macro": "b"}]}]}},
        "entries": [], "requests": [], "bibliography": {"style": "s"}}"#;
    let ring = gamhilon::Ring { of_bibliography: 1, request: 0, macro_index: 1 };
    assert_eq!(gamhilon::render_text(document), Err(gamhilon::Refusal::MacroRing(ring)));
}

#[test]
fn limits_are_held_to() {
    let document = br#"{"styles": {"s": {"citation": {"elements": [
        {"kind": "text", "macro": "m"}, {"kind": "text", "macro": "m"}]},
        "macros": [{"name": "m", "children": [{"kind": "text", "value": "x"}]}]}},
        "entries": [], "requests": [], "bibliography": {"style": "s"}}"#;
    let checked =
        |depth, elements| gamhilon::check_limits(document, gamhilon::Limits { depth, elements });
    assert_eq!(checked(2, 4), Ok(()));
    assert_eq!(checked(usize::MAX, usize::MAX), Ok(()));
    assert_eq!(checked(1, 4), Err(gamhilon::Refusal::TooDeep));
    assert_eq!(checked(2, 3), Err(gamhilon::Refusal::TooManyElements));
    let limits = gamhilon::Limits { depth: 100, elements: 100_000 };
    assert_eq!(gamhilon::check_limits(FIRST, limits), Ok(()));
    let refusal = gamhilon::check_limits(br#"{"styles": {"s": 5}}"#, limits).unwrap_err();
    assert_eq!(refusal, gamhilon::Refusal::Document(Box::new(fault("/styles/s", "an object"))));
}

#[test]
fn the_version_is_that_of_the_header() {
    let header = include_str!("../../gamhilon.h");
    let version = gamhilon::version().split(' ').next().unwrap_or("");
    assert!(header.contains(&format!("#define GAMHILON_VERSION \"{version}\"")));
}

const STYLE: &[u8] = include_bytes!("../../../examples/styles/author-date.csl");
const ITEMS: &[u8] = br#"[{"id": "doe99", "type": "book", "title": "On Order",
    "author": [{"family": "Doe"}], "issued": {"date-parts": [[1999]]}}]"#;

fn texts(citations: &'static [u8]) -> gamhilon::Texts<'static> {
    gamhilon::Texts { style: STYLE, items: ITEMS, citations, ..gamhilon::Texts::default() }
}

#[test]
fn a_citation_is_written_by_a_style_file() -> Result<(), Box<dyn Error>> {
    let json = gamhilon::cite(&texts(br#"[[{"id": "doe99", "locator": "4"}]]"#))?;
    assert!(json.contains("Doe") && json.contains("1999"), "{json}");
    let findings = gamhilon::find_cite_fault(&texts(br#"[[{"id": "doe99", "page": 4}]]"#))?;
    assert_eq!(findings.fault, None);
    let warnings: Vec<String> = findings.warnings.iter().map(ToString::to_string).collect();
    assert_eq!(warnings, ["citations: /0/0/page: unknown key, left out"]);
    Ok(())
}

const BIB: &[u8] = b"@book{doe99, author = {Doe}, title = {On Order}, year = 1999, volumi = {x}}";

#[test]
fn references_are_read_as_csl_json() -> Result<(), Box<dyn Error>> {
    let read = gamhilon::read_references(BIB, b"")?;
    assert!(read.items.contains("\"On order\""), "{}", read.items);
    let warnings: Vec<String> = read.warnings.iter().map(ToString::to_string).collect();
    assert_eq!(warnings, ["items: doe99: volumi: CSL has no place for it"]);
    let given = gamhilon::Texts { items: BIB, ..texts(br#"[[{"id": "doe99"}]]"#) };
    let json = gamhilon::cite(&given)?;
    assert!(json.contains("Doe") && json.contains("1999"), "{json}");
    assert_eq!(gamhilon::find_cite_fault(&given)?.warnings, read.warnings);
    let error = gamhilon::read_references(BIB, br#"{"from": "csv"}"#).unwrap_err();
    assert!(error.to_string().starts_with("options: /from: wanted"), "{error}");
    assert!(gamhilon::read_references(b"5", b"").is_err());
    Ok(())
}

#[test]
fn a_text_that_is_wrong_has_its_place() {
    let error = gamhilon::cite(&texts(br#"[[{"id": "roe"}]]"#)).unwrap_err();
    assert_eq!(error.status(), 2);
    assert_eq!(error.to_string(), "citations: /0/0/id: there is no item `roe`");
    let style = gamhilon::Texts { style: b"<style", ..texts(b"[]") };
    match gamhilon::cite(&style) {
        Err(gamhilon::CiteError::Text(fault)) => {
            assert_eq!(fault.remark.file, "style");
            let is_placed = matches!(fault.remark.place, gamhilon::TextPlace::Line { line: 1, .. });
            assert!(is_placed, "{fault:?}");
        }
        other => panic!("{other:?}"),
    }
}

#[test]
fn a_style_that_takes_too_much_has_its_place() {
    let mut style = String::from(concat!(
        r#"<style xmlns="http://purl.org/net/xbiblio/csl" class="in-text" version="1.0">"#,
        "<info><title>T</title><id>T</id><updated>2026-01-01T00:00:00+00:00</updated></info>\n",
        r#"<macro name="m0"><text variable="title"/></macro>"#,
    ));
    for depth in 1..18 {
        let call = format!(r#"<text macro="m{}"/>"#, depth - 1);
        style += &format!("\n<macro name=\"m{depth}\">{call}{call}</macro>");
    }
    style += "\n<citation><layout><text macro=\"m17\"/></layout></citation></style>";
    let given = gamhilon::Texts { style: style.as_bytes(), ..texts(br#"[[{"id": "doe99"}]]"#) };
    let error = gamhilon::cite(&given).unwrap_err();
    assert_eq!(error.status(), 10);
    match error {
        gamhilon::CiteError::LimitExceeded(Some(fault)) => {
            let place = fault.remark.place;
            assert_eq!(fault.remark.file, "style");
            assert!(matches!(place, gamhilon::TextPlace::Line { line: 2.., .. }), "{place:?}");
        }
        other => panic!("{other:?}"),
    }
}

#[test]
fn a_session_answers_by_what_changed() -> Result<(), Box<dyn Error>> {
    let style = include_bytes!("../../../examples/styles/author-date.csl");
    let texts = gamhilon::SessionTexts { style, ..Default::default() };
    let mut session = gamhilon::Session::open(&texts)?;
    session.put_items(
        br#"[{"id": "doe", "type": "book", "title": "T", "author": [{"family": "Doe"}],
              "issued": {"date-parts": [[1999]]}}]"#,
    )?;
    session.set_citations(br#"[{"citationID": "a", "citationItems": [{"id": "doe"}]}]"#)?;
    assert!(session.answer()?.contains(r#"[{"key":"a","text":"(Doe 1999)"}]"#));
    assert!(session.answer()?.ends_with(r#""citations":{"changed":[],"gone":[]}}"#));
    session.set_citations(br#"[[{"id": "nobody"}]]"#)?;
    let error = session.answer().unwrap_err();
    assert!(matches!(&error, gamhilon::SessionError::Fault(it) if it.contains("`nobody`")));
    session.set_citations(b"[]")?;
    assert!(session.whole()?.ends_with(r#""citations":{"changed":[],"gone":[],"keys":[]}}"#));
    assert_eq!(session.warnings()?, r#"{"warnings":[]}"#);
    session.remove_items(br#"["doe"]"#)?;
    assert!(session.set_style(&gamhilon::SessionTexts::default()).is_err());
    Ok(())
}
