//! Gamhilon for Rust: a safe wrapper over the static library.
//!
//! ```no_run
//! let document = std::fs::read("examples/first.json").unwrap();
//! match gamhilon::render_text(&document) {
//!     Ok(text) => print!("{text}"),
//!     Err(refusal) => eprintln!("{refusal}"),
//! }
//! ```
//!
//! `cite` writes citations by a style file, from texts, and `read_references` reads BibTeX,
//! BibLaTeX and RIS. A `Session` keeps a document that is edited, and answers by what changed.
mod findings;
mod given;
mod refusal;
mod session;
mod texts;

pub use refusal::{Fault, Refusal, Ring};
pub use session::{Session, SessionError, SessionTexts};
pub use texts::{
    cite, find_cite_fault, read_references, CiteError, Findings, ReadReferences, ReferencesError,
    TextFault, TextPlace, TextRemark, Texts,
};

use refusal::status;
use std::ffi::CStr;
use std::os::raw::c_char;

type Call = unsafe extern "C" fn(*const u8, usize, *mut u8, usize, *mut usize) -> u32;

extern "C" {
    fn gamhilon_render_text(
        document: *const u8,
        document_length: usize,
        buffer: *mut u8,
        buffer_length: usize,
        needed: *mut usize,
    ) -> u32;
    fn gamhilon_render_json(
        document: *const u8,
        document_length: usize,
        buffer: *mut u8,
        buffer_length: usize,
        needed: *mut usize,
    ) -> u32;
    fn gamhilon_drive(
        document: *const u8,
        document_length: usize,
        buffer: *mut u8,
        buffer_length: usize,
        needed: *mut usize,
    ) -> u32;
    fn gamhilon_find_fault(
        document: *const u8,
        document_length: usize,
        buffer: *mut u8,
        buffer_length: usize,
        needed: *mut usize,
    ) -> u32;
    fn gamhilon_find_driven_fault(
        document: *const u8,
        document_length: usize,
        buffer: *mut u8,
        buffer_length: usize,
        needed: *mut usize,
    ) -> u32;
    fn gamhilon_find_ring(document: *const u8, document_length: usize, ring: *mut Ring) -> u32;
    fn gamhilon_check_limits(
        document: *const u8,
        document_length: usize,
        depth: usize,
        elements: usize,
    ) -> u32;
    fn gamhilon_version() -> *const c_char;
}

/// What a host of documents from others allows, as gamhilon.h counts it.
#[derive(Debug, Clone, Copy, PartialEq, Eq)]
pub struct Limits {
    /// How deep the elements of a layout may nest.
    pub depth: usize,
    /// How many elements a layout may have. The children of a macro count at each of its calls.
    pub elements: usize,
}

/// A buffer of so many bytes, if there is memory for it.
fn buffer_of(length: usize) -> Option<Vec<u8>> {
    let mut buffer = Vec::new();
    buffer.try_reserve_exact(length).ok()?;
    buffer.resize(length, 0);
    Some(buffer)
}

/// What a call puts into its buffer, which has `needed` bytes at first, and as many as are needed
/// then; or the status that it ends with.
fn filled(call: Call, document: &[u8], mut needed: usize) -> Result<String, u32> {
    loop {
        let Some(mut buffer) = buffer_of(needed) else {
            return Err(status::OUT_OF_MEMORY);
        };
        let (length, room) = (document.len(), buffer.len());
        // SAFETY: slices are valid for their lengths, and three borrows of their own don't overlap.
        let ended =
            unsafe { call(document.as_ptr(), length, buffer.as_mut_ptr(), room, &mut needed) };
        match ended {
            status::OK => {
                buffer.truncate(needed);
                return Ok(String::from_utf8(buffer).expect("an answer is UTF-8"));
            }
            status::BUFFER_TOO_SMALL => continue,
            ended => return Err(ended),
        }
    }
}

/// What a call gives of a document, of which `find` tells where it is wrong.
fn text_by(call: Call, find: Call, document: &[u8], needed: usize) -> Result<String, Refusal> {
    filled(call, document, needed).map_err(|ended| refusal_of(ended, find, document))
}

/// The refusal of a document by a call that ended so. Finding its place may be refused memory.
fn refusal_of(ended: u32, find: Call, document: &[u8]) -> Refusal {
    match ended {
        status::DOCUMENT_REFUSED => match fault_by(find, document) {
            Ok(Some(fault)) => Refusal::Document(Box::new(fault)),
            Ok(None) => Refusal::Unknown(ended),
            Err(refusal) => refusal,
        },
        status::MACRO_RING => ring_of(document),
        _ => Refusal::of(ended),
    }
}

/// The refusal of a document that has a ring.
fn ring_of(document: &[u8]) -> Refusal {
    let mut ring = Ring::default();
    // SAFETY: a slice is valid for its length, and the ring is this function's own.
    match unsafe { gamhilon_find_ring(document.as_ptr(), document.len(), &mut ring) } {
        status::MACRO_RING => Refusal::MacroRing(ring),
        _ => Refusal::OutOfMemory,
    }
}

fn fault_by(find: Call, document: &[u8]) -> Result<Option<Fault>, Refusal> {
    let told = filled(find, document, document.len().saturating_add(4096)).map_err(Refusal::of)?;
    if told.is_empty() {
        return Ok(None);
    }
    findings::fault_of(&told).map(Some).ok_or(Refusal::Unknown(status::OK))
}

/// The answer to a document as text: a line for each citation, and for each item of the
/// bibliography.
pub fn render_text(document: &[u8]) -> Result<String, Refusal> {
    let needed = document.len().saturating_mul(2).saturating_add(4096);
    text_by(gamhilon_render_text, gamhilon_find_fault, document, needed)
}

/// The answer to a document as JSON (docs/ANSWER.md).
pub fn render_json(document: &[u8]) -> Result<String, Refusal> {
    // Each call does the whole work, so the buffer is one that mostly does.
    let needed = document.len().saturating_mul(8).saturating_add(4096);
    text_by(gamhilon_render_json, gamhilon_find_fault, document, needed)
}

/// What comes of a driven document (docs/DRIVEN.md): a JSON object whose one member is `answer`,
/// where its host has written all that is asked for, and else `missing`, a list of the tasks that
/// are to be written next. A host writes these, adds them to the document and calls again:
///
/// ```no_run
/// fn answer(
///     mut document: String,
///     write: impl Fn(&str, &str) -> String,
/// ) -> Result<String, gamhilon::Refusal> {
///     loop {
///         let outcome = gamhilon::drive(document.as_bytes())?;
///         if outcome.starts_with("{\"answer\":") {
///             return Ok(outcome);
///         }
///         document = write(&document, &outcome);
///     }
/// }
/// ```
pub fn drive(document: &[u8]) -> Result<String, Refusal> {
    let needed = document.len().saturating_mul(8).saturating_add(4096);
    text_by(gamhilon_drive, gamhilon_find_driven_fault, document, needed)
}

/// The first fault of a document that isn't of the form; none where it is of the form.
pub fn find_fault(document: &[u8]) -> Result<Option<Fault>, Refusal> {
    fault_by(gamhilon_find_fault, document)
}

/// The first fault of a driven document, as `find_fault` tells that of a document.
pub fn find_driven_fault(document: &[u8]) -> Result<Option<Fault>, Refusal> {
    fault_by(gamhilon_find_driven_fault, document)
}

/// Whether each layout of each style of a document is within limits. Renders nothing. A host of
/// documents from others asks this first, since the other calls have no limits of their own:
///
/// ```no_run
/// fn answer(document: &[u8]) -> Result<String, gamhilon::Refusal> {
///     gamhilon::check_limits(document, gamhilon::Limits { depth: 100, elements: 100_000 })?;
///     gamhilon::render_text(document)
/// }
/// ```
pub fn check_limits(document: &[u8], limits: Limits) -> Result<(), Refusal> {
    let Limits { depth, elements } = limits;
    // SAFETY: a slice is valid for its length.
    let ended =
        unsafe { gamhilon_check_limits(document.as_ptr(), document.len(), depth, elements) };
    match ended {
        status::OK => Ok(()),
        ended => Err(refusal_of(ended, gamhilon_find_fault, document)),
    }
}

/// The version of the library, and the commit and the toolchain that it was proved and built by,
/// where those are known.
pub fn version() -> &'static str {
    // SAFETY: the library gives a text that ends with a NUL and is never freed.
    let text = unsafe { CStr::from_ptr(gamhilon_version()) };
    text.to_str().unwrap_or("unknown")
}

#[cfg(test)]
mod tests {
    use super::*;

    unsafe extern "C" fn asks_for_all_memory(
        _: *const u8,
        _: usize,
        _: *mut u8,
        _: usize,
        needed: *mut usize,
    ) -> u32 {
        *needed = isize::MAX as usize;
        6
    }

    unsafe extern "C" fn ends_with_seventeen(
        _: *const u8,
        _: usize,
        _: *mut u8,
        _: usize,
        _: *mut usize,
    ) -> u32 {
        17
    }

    #[test]
    fn a_buffer_that_cannot_be_had_is_out_of_memory() {
        for needed in [0, usize::MAX] {
            let made = text_by(asks_for_all_memory, gamhilon_find_fault, b"", needed);
            assert_eq!(made, Err(Refusal::OutOfMemory));
        }
    }

    #[test]
    fn a_status_of_a_later_library_is_told() {
        let refusal = text_by(ends_with_seventeen, gamhilon_find_fault, b"", 0).unwrap_err();
        assert_eq!(refusal, Refusal::Unknown(17));
        assert_eq!(refusal.status(), 17);
        assert!(refusal.to_string().contains("17"));
    }
}
