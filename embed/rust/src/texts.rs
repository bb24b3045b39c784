//! Citations and a bibliography by a style file, and references in any form.
use crate::buffer_of;
use crate::findings::{findings_of, read_of};
use crate::given::GivenText;
use crate::refusal::{status, Refusal};
use std::fmt;

type TextCall = unsafe extern "C" fn(
    GivenText<'_>,
    GivenText<'_>,
    GivenText<'_>,
    GivenText<'_>,
    GivenText<'_>,
    *mut u8,
    usize,
    *mut usize,
) -> u32;

extern "C" {
    fn gamhilon_cite(
        style: GivenText<'_>,
        locales: GivenText<'_>,
        items: GivenText<'_>,
        citations: GivenText<'_>,
        options: GivenText<'_>,
        buffer: *mut u8,
        buffer_length: usize,
        needed: *mut usize,
    ) -> u32;
    fn gamhilon_find_cite_fault(
        style: GivenText<'_>,
        locales: GivenText<'_>,
        items: GivenText<'_>,
        citations: GivenText<'_>,
        options: GivenText<'_>,
        buffer: *mut u8,
        buffer_length: usize,
        needed: *mut usize,
    ) -> u32;
    fn gamhilon_read_references(
        references: GivenText<'_>,
        options: GivenText<'_>,
        buffer: *mut u8,
        buffer_length: usize,
        needed: *mut usize,
    ) -> u32;
}

/// The texts of a call, as gamhilon.h tells them. Locales and options may be empty.
#[derive(Debug, Clone, Copy, Default)]
pub struct Texts<'t> {
    /// A style file of CSL 1.0.2 that stands for itself.
    pub style: &'t [u8],
    /// A JSON list of the texts of locale files. American English is built in.
    pub locales: &'t [u8],
    /// CSL-JSON (docs/REFERENCES.md), BibTeX, BibLaTeX or RIS (docs/GUIDES/REFERENCES.md).
    pub items: &'t [u8],
    /// A JSON list of citations, which are lists of cites (docs/WRITER.md).
    pub citations: &'t [u8],
    /// A JSON object: `locale`, a language tag; `nocite`, whether items that aren't cited are
    /// listed; `abbreviations`, short forms of texts (docs/STYLE_FILES.md); `limits`; `from`, the
    /// form of the items; and `form` (docs/WRITER.md).
    pub options: &'t [u8],
}

/// Where in a text something is.
#[derive(Debug, Clone, PartialEq, Eq)]
pub enum TextPlace {
    /// In the text as a whole.
    Whole,
    /// At this line and this column, both from 1.
    Line { line: usize, column: usize },
    /// At the part of its JSON to which this JSON Pointer leads.
    Pointer(String),
    /// In this field of the entry with this key.
    Field { entry: String, field: String },
}

/// Something that is wrong or odd in a text.
#[derive(Debug, Clone, PartialEq, Eq)]
pub struct TextRemark {
    /// The text: `style`, `locales`, `locales/0` for the first locale file, `items`, `citations` or
    /// `options`.
    pub file: String,
    pub place: TextPlace,
    /// What it is, for people.
    pub message: String,
}

/// What is wrong with a text.
#[derive(Debug, Clone, PartialEq, Eq)]
pub struct TextFault {
    pub remark: TextRemark,
    /// The link to the style that is to be given in place of one that stands for it.
    pub parent: Option<String>,
    /// The language to be asked for then.
    pub parent_locale: Option<String>,
}

/// What is wrong and odd in texts.
#[derive(Debug, Clone, PartialEq, Eq)]
pub struct Findings {
    pub fault: Option<TextFault>,
    /// What is read otherwise than it stands in the texts, up to the fault.
    pub warnings: Vec<TextRemark>,
}

/// What was read of references.
#[derive(Debug, Clone, PartialEq, Eq)]
pub struct ReadReferences {
    /// The items, as a list of CSL-JSON.
    pub items: String,
    /// What was lost of them, by entry and field, and what can't be read.
    pub warnings: Vec<TextRemark>,
}

/// Why references aren't read.
#[derive(Debug, Clone, PartialEq, Eq)]
pub enum ReferencesError {
    /// The references are not of their form, or the options are wrong.
    Text(Box<TextFault>),
    /// Another reason: `OutOfMemory` or `Unknown`.
    Refused(Refusal),
}

/// Why there are no citations.
#[derive(Debug, Clone, PartialEq, Eq)]
pub enum CiteError {
    /// A text is wrong.
    Text(Box<TextFault>),
    /// The style takes more steps, or writes more, than it may: the place in it, or none where it
    /// exceeds its limits only through what the items have.
    LimitExceeded(Option<Box<TextFault>>),
    /// Another reason: `NumberOverflow`, `OutOfMemory` or `Unknown`.
    Refused(Refusal),
}

impl CiteError {
    /// The status of gamhilon.h.
    pub fn status(&self) -> u32 {
        match self {
            CiteError::Text(_) => status::DOCUMENT_REFUSED,
            CiteError::LimitExceeded(_) => status::LIMIT_EXCEEDED,
            CiteError::Refused(refusal) => refusal.status(),
        }
    }
}

impl From<Refusal> for CiteError {
    fn from(refusal: Refusal) -> CiteError {
        CiteError::Refused(refusal)
    }
}

impl fmt::Display for TextRemark {
    fn fmt(&self, f: &mut fmt::Formatter<'_>) -> fmt::Result {
        let TextRemark { file, place, message } = self;
        match place {
            TextPlace::Whole => write!(f, "{file}: {message}"),
            TextPlace::Line { line, column } => write!(f, "{file}:{line}:{column}: {message}"),
            TextPlace::Pointer(pointer) => write!(f, "{file}: {pointer}: {message}"),
            TextPlace::Field { entry, field } => {
                write!(f, "{file}: {entry}: {field}: {message}")
            }
        }
    }
}

impl fmt::Display for CiteError {
    fn fmt(&self, f: &mut fmt::Formatter<'_>) -> fmt::Result {
        match self {
            CiteError::Text(fault) | CiteError::LimitExceeded(Some(fault)) => {
                write!(f, "{}", fault.remark)
            }
            CiteError::LimitExceeded(None) => write!(f, "{}", Refusal::LimitExceeded),
            CiteError::Refused(refusal) => write!(f, "{refusal}"),
        }
    }
}

impl std::error::Error for CiteError {}

impl fmt::Display for ReferencesError {
    fn fmt(&self, f: &mut fmt::Formatter<'_>) -> fmt::Result {
        match self {
            ReferencesError::Text(fault) => write!(f, "{}", fault.remark),
            ReferencesError::Refused(refusal) => write!(f, "{refusal}"),
        }
    }
}

impl std::error::Error for ReferencesError {}

/// The citations and the bibliography of texts as JSON (docs/ANSWER.md).
///
/// ```no_run
/// let style = std::fs::read("examples/styles/author-date.csl").unwrap();
/// let texts = gamhilon::Texts {
///     style: &style,
///     items: br#"[{"id": "doe99", "type": "book", "title": "On Order"}]"#,
///     citations: br#"[[{"id": "doe99", "locator": "4"}]]"#,
///     ..gamhilon::Texts::default()
/// };
/// match gamhilon::cite(&texts) {
///     Ok(json) => println!("{json}"),
///     Err(error) => eprintln!("{error}"),
/// }
/// ```
///
/// What is odd in the texts is told by `find_cite_fault`.
pub fn cite(texts: &Texts<'_>) -> Result<String, CiteError> {
    let length = texts.items.len().saturating_add(texts.citations.len());
    let needed = length.saturating_mul(8).saturating_add(1 << 16);
    match filled_by(gamhilon_cite, texts, needed) {
        Ok(json) => Ok(json),
        Err(status::DOCUMENT_REFUSED) => Err(fault_of(texts)),
        Err(status::LIMIT_EXCEEDED) => Err(excess_of(texts)),
        Err(ended) => Err(CiteError::Refused(Refusal::of(ended))),
    }
}

/// What is wrong and odd in texts. Writes no citation.
pub fn find_cite_fault(texts: &Texts<'_>) -> Result<Findings, Refusal> {
    let json = filled_by(gamhilon_find_cite_fault, texts, 1 << 12).map_err(Refusal::of)?;
    findings_of(&json).ok_or(Refusal::Unknown(status::OK))
}

/// The items of CSL-JSON, BibTeX, BibLaTeX or RIS as CSL-JSON, with what was lost of them. Options
/// are those of `Texts`, of which `from` and `locale` count; they may be empty.
///
/// ```no_run
/// let library = std::fs::read("library.bib").unwrap();
/// let read = gamhilon::read_references(&library, b"").unwrap();
/// println!("{}", read.items);
/// for warning in &read.warnings {
///     eprintln!("{warning}");
/// }
/// ```
///
/// # Errors
///
/// `Text` where the references are not of their form, or the options are wrong; `Refused`.
pub fn read_references(
    references: &[u8],
    options: &[u8],
) -> Result<ReadReferences, ReferencesError> {
    let needed = references.len().saturating_mul(2).saturating_add(1 << 12);
    let [references, options] = [references, options].map(GivenText::of);
    let call = |buffer, length, needed: &mut usize| {
        // SAFETY: the texts and the buffer are valid for their lengths, and don't overlap.
        unsafe { gamhilon_read_references(references, options, buffer, length, needed) }
    };
    let json =
        filled(call, needed).map_err(|ended| ReferencesError::Refused(Refusal::of(ended)))?;
    match read_of(&json) {
        Some(Ok(read)) => Ok(read),
        Some(Err(fault)) => Err(ReferencesError::Text(Box::new(fault))),
        None => Err(ReferencesError::Refused(Refusal::Unknown(status::OK))),
    }
}

/// The error of texts that are refused.
fn fault_of(texts: &Texts<'_>) -> CiteError {
    match find_cite_fault(texts) {
        Ok(Findings { fault: Some(fault), .. }) => CiteError::Text(Box::new(fault)),
        Ok(Findings { fault: None, .. }) => {
            CiteError::Refused(Refusal::Unknown(status::DOCUMENT_REFUSED))
        }
        Err(refusal) => CiteError::Refused(refusal),
    }
}

/// The error of texts whose style takes more than it may.
fn excess_of(texts: &Texts<'_>) -> CiteError {
    match find_cite_fault(texts) {
        Ok(Findings { fault, .. }) => CiteError::LimitExceeded(fault.map(Box::new)),
        Err(refusal) => CiteError::Refused(refusal),
    }
}

/// What a call of these texts puts into its buffer, or the status that it ends with.
fn filled_by(call: TextCall, texts: &Texts<'_>, needed: usize) -> Result<String, u32> {
    let Texts { style, locales, items, citations, options } = *texts;
    let [style, locales, items, citations, options] =
        [style, locales, items, citations, options].map(GivenText::of);
    let call = |buffer, length, needed: &mut usize| {
        // SAFETY: the texts and the buffer are valid for their lengths, and don't overlap.
        unsafe { call(style, locales, items, citations, options, buffer, length, needed) }
    };
    filled(call, needed)
}

/// What a call puts into its buffer, which has `needed` bytes at first, and as many as are needed
/// then; or the status that it ends with. The call is given the buffer and its length.
fn filled(
    call: impl Fn(*mut u8, usize, &mut usize) -> u32,
    mut needed: usize,
) -> Result<String, u32> {
    loop {
        let Some(mut buffer) = buffer_of(needed) else {
            return Err(status::OUT_OF_MEMORY);
        };
        match call(buffer.as_mut_ptr(), buffer.len(), &mut needed) {
            status::OK => {
                buffer.truncate(needed);
                return Ok(String::from_utf8(buffer).expect("an answer is UTF-8"));
            }
            status::BUFFER_TOO_SMALL => continue,
            ended => return Err(ended),
        }
    }
}
