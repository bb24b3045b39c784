//! The JSON of faults and of findings, read.
use crate::refusal::Fault;
use crate::texts::{Findings, ReadReferences, TextFault, TextPlace, TextRemark};

/// What of JSON findings have.
enum Value {
    Text(String),
    Number(usize),
    List(Vec<Value>),
    Object(Vec<(String, Value)>),
}

impl Value {
    fn member(&self, key: &str) -> Option<&Value> {
        match self {
            Value::Object(members) => {
                members.iter().find(|member| member.0 == key).map(|member| &member.1)
            }
            _ => None,
        }
    }

    fn text(&self, key: &str) -> Option<String> {
        match self.member(key)? {
            Value::Text(text) => Some(text.clone()),
            _ => None,
        }
    }

    fn number(&self, key: &str) -> Option<usize> {
        match self.member(key)? {
            Value::Number(number) => Some(*number),
            _ => None,
        }
    }
}

/// The value of this JSON.
fn value_of(json: &str) -> Option<Value> {
    let mut reader = Reader { rest: json };
    let value = reader.value()?;
    reader.rest.is_empty().then_some(value)
}

/// The fault of a document that this JSON says.
pub(crate) fn fault_of(json: &str) -> Option<Fault> {
    let value = value_of(json)?;
    let [pointer, found, wanted] = ["pointer", "found", "wanted"].map(|key| value.text(key));
    Some(Fault { pointer: pointer?, found: found?, wanted: wanted? })
}

/// The findings that this JSON says.
pub(crate) fn findings_of(json: &str) -> Option<Findings> {
    let value = value_of(json)?;
    let fault = match value.member("fault") {
        Some(fault) => Some(text_fault_of(fault)?),
        None => None,
    };
    Some(Findings { fault, warnings: warnings_of(&value)? })
}

/// What this JSON says of references: what was read, or what is wrong. Items, which are there where
/// nothing is wrong, stand first.
pub(crate) fn read_of(json: &str) -> Option<Result<ReadReferences, TextFault>> {
    let Some(from_items) = json.strip_prefix("{\"items\":") else {
        return Some(Err(findings_of(json)?.fault?));
    };
    let length = length_of_list(from_items)?;
    let (items, rest) = from_items.split_at(length);
    let warnings = warnings_of(&value_of(&format!("{{{}", rest.strip_prefix(',')?))?)?;
    Some(Ok(ReadReferences { items: items.to_string(), warnings }))
}

/// The length of the list with which this JSON begins.
fn length_of_list(json: &str) -> Option<usize> {
    let (mut depth, mut is_text, mut is_escaped) = (0usize, false, false);
    for (place, byte) in json.bytes().enumerate() {
        match byte {
            _ if is_escaped => is_escaped = false,
            b'\\' if is_text => is_escaped = true,
            b'"' => is_text = !is_text,
            b'[' | b'{' if !is_text => depth += 1,
            b']' | b'}' if !is_text => {
                depth = depth.checked_sub(1)?;
                if depth == 0 {
                    return Some(place + 1);
                }
            }
            _ => {}
        }
    }
    None
}

fn warnings_of(value: &Value) -> Option<Vec<TextRemark>> {
    match value.member("warnings")? {
        Value::List(items) => items.iter().map(remark_of).collect(),
        _ => None,
    }
}

fn text_fault_of(value: &Value) -> Option<TextFault> {
    Some(TextFault {
        remark: remark_of(value)?,
        parent: value.text("parent"),
        parent_locale: value.text("parent_locale"),
    })
}

fn remark_of(value: &Value) -> Option<TextRemark> {
    let file = value.text("file")?;
    Some(TextRemark { file, place: place_of(value), message: value.text("message")? })
}

fn place_of(value: &Value) -> TextPlace {
    if let (Some(line), Some(column)) = (value.number("line"), value.number("column")) {
        return TextPlace::Line { line, column };
    }
    if let (Some(entry), Some(field)) = (value.text("entry"), value.text("field")) {
        return TextPlace::Field { entry, field };
    }
    value.text("pointer").map_or(TextPlace::Whole, TextPlace::Pointer)
}

/// Reads compact JSON, as the library writes it.
struct Reader<'t> {
    rest: &'t str,
}

impl Reader<'_> {
    fn value(&mut self) -> Option<Value> {
        match self.rest.chars().next()? {
            '"' => Some(Value::Text(self.text()?)),
            '[' => Some(Value::List(self.items('[', ']', Reader::value)?)),
            '{' => Some(Value::Object(self.items('{', '}', Reader::pair)?)),
            _ => self.number(),
        }
    }

    /// Whether this character comes next, which is read then.
    fn takes(&mut self, wanted: char) -> bool {
        match self.rest.strip_prefix(wanted) {
            Some(rest) => {
                self.rest = rest;
                true
            }
            None => false,
        }
    }

    /// What stands between brackets, with commas between.
    fn items<T>(
        &mut self,
        open: char,
        close: char,
        item: fn(&mut Self) -> Option<T>,
    ) -> Option<Vec<T>> {
        let mut items = Vec::new();
        if !self.takes(open) {
            return None;
        }
        if self.takes(close) {
            return Some(items);
        }
        loop {
            items.push(item(self)?);
            if self.takes(close) {
                return Some(items);
            }
            if !self.takes(',') {
                return None;
            }
        }
    }

    fn pair(&mut self) -> Option<(String, Value)> {
        let key = self.text()?;
        if self.takes(':') {
            Some((key, self.value()?))
        } else {
            None
        }
    }

    fn number(&mut self) -> Option<Value> {
        let length = self.rest.bytes().take_while(u8::is_ascii_digit).count();
        let (digits, rest) = self.rest.split_at(length);
        self.rest = rest;
        Some(Value::Number(digits.parse().ok()?))
    }

    fn text(&mut self) -> Option<String> {
        let mut text = String::new();
        if !self.takes('"') {
            return None;
        }
        loop {
            let c = self.next_char()?;
            match c {
                '"' => return Some(text),
                '\\' => text.push(self.escaped()?),
                c => text.push(c),
            }
        }
    }

    fn next_char(&mut self) -> Option<char> {
        let mut chars = self.rest.chars();
        let c = chars.next()?;
        self.rest = chars.as_str();
        Some(c)
    }

    /// The character of an escape. Only control characters are written by their numbers.
    fn escaped(&mut self) -> Option<char> {
        match self.next_char()? {
            'n' => Some('\n'),
            't' => Some('\t'),
            'r' => Some('\r'),
            'b' => Some('\u{8}'),
            'f' => Some('\u{c}'),
            'u' => {
                let digits = self.rest.get(..4)?;
                self.rest = &self.rest[4..];
                char::from_u32(u32::from_str_radix(digits, 16).ok()?)
            }
            c => Some(c),
        }
    }
}

#[cfg(test)]
mod tests {
    use super::*;

    fn remark(file: &str, place: TextPlace, message: &str) -> TextRemark {
        TextRemark { file: file.to_string(), place, message: message.to_string() }
    }

    #[test]
    fn what_the_library_writes_is_read() {
        let json = concat!(
            r#"{"fault":{"file":"style","message":"it stands \"for\"\u0001\n","#,
            r#""parent":"p","parent_locale":"de"},"#,
            r#""warnings":[{"column":2,"file":"locales/0","line":1,"message":"ä"},"#,
            r#"{"file":"items","message":"","pointer":"/0/a"}]}"#
        );
        let findings = findings_of(json).expect("findings");
        let fault = findings.fault.expect("a fault");
        assert_eq!(fault.remark, remark("style", TextPlace::Whole, "it stands \"for\"\u{1}\n"));
        assert_eq!(fault.parent.as_deref(), Some("p"));
        assert_eq!(fault.parent_locale.as_deref(), Some("de"));
        let first = remark("locales/0", TextPlace::Line { line: 1, column: 2 }, "ä");
        let second = remark("items", TextPlace::Pointer("/0/a".to_string()), "");
        assert_eq!(findings.warnings, [first, second]);
    }

    #[test]
    fn what_the_library_says_of_references_is_read() {
        let json = concat!(
            "{\"items\":[\n  {\n    \"id\": \"a\\\"]\"\n  }\n],",
            r#""warnings":[{"entry":"a","field":"series","file":"items","message":"lost"}]}"#
        );
        let read = read_of(json).expect("what was read").expect("items");
        assert_eq!(read.items, "[\n  {\n    \"id\": \"a\\\"]\"\n  }\n]");
        let [entry, field] = ["a", "series"].map(str::to_string);
        assert_eq!(read.warnings, [remark("items", TextPlace::Field { entry, field }, "lost")]);
        let wrong = r#"{"fault":{"file":"items","message":"no"},"warnings":[]}"#;
        let fault = read_of(wrong).expect("what was read").unwrap_err();
        assert_eq!(fault.remark, remark("items", TextPlace::Whole, "no"));
        for json in ["", "{", "{}", "{\"items\":", "{\"items\":[}", "{\"items\":[]}"] {
            assert_eq!(read_of(json), None, "{json}");
        }
    }

    #[test]
    fn a_fault_of_a_document_is_read() {
        let fault = fault_of(r#"{"found":"a number","pointer":"/a~1b","wanted":"a \"text\""}"#);
        let [pointer, found, wanted] = ["/a~1b", "a number", "a \"text\""].map(str::to_string);
        assert_eq!(fault, Some(Fault { pointer, found, wanted }));
        assert_eq!(fault_of(r#"{"found":"a number","pointer":"/a"}"#), None);
    }

    #[test]
    fn what_is_no_such_json_has_no_findings() {
        let wrong = r#"{"warnings":[{"file":1}]}"#;
        for json in ["", "{", "{}", "[]", "{\"warnings\":[}", "{\"warnings\":[]}x", wrong] {
            assert_eq!(findings_of(json), None, "{json}");
            assert_eq!(fault_of(json), None, "{json}");
        }
    }
}
