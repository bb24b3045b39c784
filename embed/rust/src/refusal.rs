//! Why there is no answer.
use std::fmt;

/// The statuses of gamhilon.h that a call may end with.
pub(crate) mod status {
    pub(crate) const OK: u32 = 0;
    pub(crate) const DOCUMENT_REFUSED: u32 = 2;
    pub(crate) const MACRO_RING: u32 = 3;
    pub(crate) const NUMBER_OVERFLOW: u32 = 4;
    pub(crate) const OUT_OF_MEMORY: u32 = 5;
    pub(crate) const BUFFER_TOO_SMALL: u32 = 6;
    pub(crate) const TOO_DEEP: u32 = 7;
    pub(crate) const TOO_MANY_ELEMENTS: u32 = 8;
    pub(crate) const LIMIT_EXCEEDED: u32 = 10;
}

/// Where a document is wrong: its first fault.
#[derive(Debug, Clone, PartialEq, Eq)]
pub struct Fault {
    /// A JSON Pointer (RFC 6901) to the part of the document; empty for the whole of it.
    pub pointer: String,
    /// What stands there.
    pub found: String,
    /// What is asked for there (docs/DOCUMENT.md, "Where a document is wrong").
    pub wanted: String,
}

/// Where the first ring of macros is.
#[repr(C)]
#[derive(Debug, Clone, Copy, PartialEq, Eq, Default)]
pub struct Ring {
    /// 1 where the style is that of the bibliography, and else 0.
    pub of_bibliography: usize,
    /// The index of the request whose style it is, from 0.
    pub request: usize,
    /// The index of the first macro on a ring, among the macros of its style, from 0.
    pub macro_index: usize,
}

/// Why there is no answer.
#[derive(Debug, Clone, PartialEq, Eq)]
#[non_exhaustive]
pub enum Refusal {
    /// The document isn't JSON, or not of the form of a document.
    Document(Box<Fault>),
    /// The macros of a style call each other in a ring.
    MacroRing(Ring),
    /// The citation numbers don't fit 64 bits.
    NumberOverflow,
    /// Memory was refused: to the library, or for the buffer of the answer.
    OutOfMemory,
    /// The elements of a layout nest deeper than the limit.
    TooDeep,
    /// A layout has more elements than the limit.
    TooManyElements,
    /// A style file takes more steps, or writes more, than its limits let it.
    LimitExceeded,
    /// The library ended the call with a status that this crate doesn't know.
    Unknown(u32),
}

impl Refusal {
    /// The status of gamhilon.h.
    pub fn status(&self) -> u32 {
        match self {
            Refusal::Document(_) => status::DOCUMENT_REFUSED,
            Refusal::MacroRing(_) => status::MACRO_RING,
            Refusal::NumberOverflow => status::NUMBER_OVERFLOW,
            Refusal::OutOfMemory => status::OUT_OF_MEMORY,
            Refusal::TooDeep => status::TOO_DEEP,
            Refusal::TooManyElements => status::TOO_MANY_ELEMENTS,
            Refusal::LimitExceeded => status::LIMIT_EXCEEDED,
            Refusal::Unknown(status) => *status,
        }
    }

    /// The refusal that a status tells by itself.
    pub(crate) fn of(status: u32) -> Refusal {
        match status {
            status::NUMBER_OVERFLOW => Refusal::NumberOverflow,
            status::OUT_OF_MEMORY => Refusal::OutOfMemory,
            status::TOO_DEEP => Refusal::TooDeep,
            status::TOO_MANY_ELEMENTS => Refusal::TooManyElements,
            status::LIMIT_EXCEEDED => Refusal::LimitExceeded,
            _ => Refusal::Unknown(status),
        }
    }
}

impl fmt::Display for Fault {
    fn fmt(&self, f: &mut fmt::Formatter<'_>) -> fmt::Result {
        let Fault { pointer, found, wanted } = self;
        if found.starts_with("no JSON") || found.starts_with("no UTF-8") {
            return f.write_str(found);
        }
        let place = if pointer.is_empty() { "the document" } else { pointer };
        if found.starts_with("missing key ") {
            return write!(f, "{place}: {found}");
        }
        write!(f, "{place}: {found}; wanted is {wanted}")
    }
}

impl fmt::Display for Ring {
    fn fmt(&self, f: &mut fmt::Formatter<'_>) -> fmt::Result {
        let Ring { of_bibliography, request, macro_index } = self;
        f.write_str("the macros of the style of ")?;
        match of_bibliography {
            0 => write!(f, "request {request}")?,
            _ => f.write_str("the bibliography")?,
        }
        write!(f, " call each other in a ring, macro {macro_index} the first")
    }
}

impl fmt::Display for Refusal {
    fn fmt(&self, f: &mut fmt::Formatter<'_>) -> fmt::Result {
        match self {
            Refusal::Document(fault) => write!(f, "{fault}"),
            Refusal::MacroRing(ring) => write!(f, "{ring}"),
            Refusal::NumberOverflow => f.write_str("the citation numbers don't fit 64 bits"),
            Refusal::OutOfMemory => f.write_str("memory was refused"),
            Refusal::TooDeep => f.write_str("the elements of a layout nest too deep"),
            Refusal::TooManyElements => f.write_str("a layout has too many elements"),
            Refusal::LimitExceeded => {
                f.write_str("the style takes more steps or writes more than it may")
            }
            Refusal::Unknown(status) => {
                write!(f, "the library ended with status {status}, which this crate does not know")
            }
        }
    }
}

impl std::error::Error for Refusal {}

#[cfg(test)]
mod tests {
    use super::*;

    fn fault(pointer: &str, found: &str, wanted: &str) -> Refusal {
        let [pointer, found, wanted] = [pointer, found, wanted].map(str::to_string);
        Refusal::Document(Box::new(Fault { pointer, found, wanted }))
    }

    #[test]
    fn a_fault_is_told_with_its_place() {
        for (refusal, told) in [
            (fault("/styles", "a number", "an object"), "/styles: a number; wanted is an object"),
            (fault("", "a list", "an object"), "the document: a list; wanted is an object"),
            (fault("/entries/0", "missing key key", "key"), "/entries/0: missing key key"),
            (fault("", "no JSON from line 1, column 2", "JSON"), "no JSON from line 1, column 2"),
        ] {
            assert_eq!(refusal.to_string(), told);
            assert_eq!(refusal.status(), 2);
        }
    }

    #[test]
    fn a_ring_is_told_with_its_place() {
        let of_bibliography = Ring { of_bibliography: 1, request: 0, macro_index: 4 };
        let of_request = Ring { of_bibliography: 0, request: 3, macro_index: 0 };
        for (ring, style) in [(of_bibliography, "the bibliography"), (of_request, "request 3")] {
            let told = Refusal::MacroRing(ring).to_string();
            let wanted = format!("the macros of the style of {style} call");
            assert!(told.starts_with(&wanted), "{told}");
            assert!(told.ends_with(&format!("macro {} the first", ring.macro_index)), "{told}");
        }
    }

    #[test]
    fn what_exceeds_limits_has_its_status() {
        for (status, refusal) in
            [(7, Refusal::TooDeep), (8, Refusal::TooManyElements), (10, Refusal::LimitExceeded)]
        {
            assert_eq!(Refusal::of(status), refusal);
            assert_eq!(refusal.status(), status);
        }
        assert_eq!(Refusal::TooDeep.to_string(), "the elements of a layout nest too deep");
        assert_eq!(Refusal::TooManyElements.to_string(), "a layout has too many elements");
        let told = "the style takes more steps or writes more than it may";
        assert_eq!(Refusal::LimitExceeded.to_string(), told);
    }
}
