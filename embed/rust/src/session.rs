//! Sessions: a document that is edited, answered by what changed.
use crate::buffer_of;
use crate::given::GivenText;
use crate::refusal::{status, Refusal};
use std::ffi::c_void;
use std::fmt;
use std::marker::PhantomData;
use std::ptr::null_mut;

/// gamhilon_session of gamhilon.h.
#[repr(C)]
struct Held {
    held: *mut c_void,
}

type Ask = unsafe extern "C" fn(*mut Held, *mut u8, usize, *mut usize) -> u32;

type Style = unsafe extern "C" fn(*mut Held, GivenText<'_>, GivenText<'_>, GivenText<'_>) -> u32;

type Edit = unsafe extern "C" fn(*mut Held, GivenText<'_>) -> u32;

extern "C" {
    fn gamhilon_session_open(
        session: *mut Held,
        style: GivenText<'_>,
        locales: GivenText<'_>,
        options: GivenText<'_>,
    ) -> u32;
    fn gamhilon_session_set_style(
        session: *mut Held,
        style: GivenText<'_>,
        locales: GivenText<'_>,
        options: GivenText<'_>,
    ) -> u32;
    fn gamhilon_session_put_items(session: *mut Held, items: GivenText<'_>) -> u32;
    fn gamhilon_session_remove_items(session: *mut Held, ids: GivenText<'_>) -> u32;
    fn gamhilon_session_set_citations(session: *mut Held, citations: GivenText<'_>) -> u32;
    fn gamhilon_session_answer(
        session: *mut Held,
        buffer: *mut u8,
        buffer_length: usize,
        needed: *mut usize,
    ) -> u32;
    fn gamhilon_session_whole(
        session: *mut Held,
        buffer: *mut u8,
        buffer_length: usize,
        needed: *mut usize,
    ) -> u32;
    fn gamhilon_session_warnings(
        session: *mut Held,
        buffer: *mut u8,
        buffer_length: usize,
        needed: *mut usize,
    ) -> u32;
    fn gamhilon_session_error(
        session: *mut Held,
        buffer: *mut u8,
        buffer_length: usize,
        needed: *mut usize,
    ) -> u32;
    fn gamhilon_session_close(session: *mut Held);
}

/// The texts of a style. Locales and options may be empty.
#[derive(Debug, Clone, Copy, Default)]
pub struct SessionTexts<'t> {
    /// A style file of CSL 1.0.2 that stands for itself.
    pub style: &'t [u8],
    /// A JSON list of the texts of locale files. American English is built in.
    pub locales: &'t [u8],
    /// A JSON object: the options of `Texts`, and `draft`. `form` is `text`, `html`, `markdown` or
    /// `latex`.
    pub options: &'t [u8],
}

/// Why a session gives no answer. It is then as it was.
#[derive(Debug, Clone, PartialEq, Eq)]
pub enum SessionError {
    /// A text is wrong, or an item is cited that isn't there: what is wrong, with its place.
    Fault(String),
    /// The style takes more steps, or writes more, than it may: what exceeds the limits.
    LimitExceeded(String),
    /// Another reason: `NumberOverflow`, `OutOfMemory` or `Unknown`.
    Refused(Refusal),
}

impl fmt::Display for SessionError {
    fn fmt(&self, f: &mut fmt::Formatter<'_>) -> fmt::Result {
        match self {
            SessionError::Fault(message) | SessionError::LimitExceeded(message) => {
                f.write_str(message)
            }
            SessionError::Refused(refusal) => write!(f, "{refusal}"),
        }
    }
}

impl std::error::Error for SessionError {}

/// A document that is edited: a style, items and citations. Each answer has what changed since the
/// one before, and what didn't change isn't written again.
///
/// ```no_run
/// let style = std::fs::read("examples/styles/author-date.csl").unwrap();
/// let texts = gamhilon::SessionTexts { style: &style, ..Default::default() };
/// let mut session = gamhilon::Session::open(&texts)?;
/// session.put_items(br#"[{"id": "doe99", "type": "book", "title": "On Order"}]"#)?;
/// session.set_citations(br#"[{"citationID": "a", "citationItems": [{"id": "doe99"}]}]"#)?;
/// println!("{}", session.answer()?);
/// # Ok::<(), gamhilon::SessionError>(())
/// ```
///
/// A session stays on the thread that opened it.
#[derive(Debug)]
pub struct Session {
    held: *mut c_void,
    /// It is neither `Send` nor `Sync`.
    on_one_thread: PhantomData<*mut ()>,
}

impl Session {
    /// A session in a style, with no items and no citations.
    ///
    /// # Errors
    ///
    /// `Fault` with the first thing that is wrong; `LimitExceeded`; `Refused`.
    pub fn open(texts: &SessionTexts<'_>) -> Result<Session, SessionError> {
        let mut session = Session { held: null_mut(), on_one_thread: PhantomData };
        session.styled(gamhilon_session_open, texts)?;
        Ok(session)
    }

    /// From now on the document is written in another style, with its own locales and options.
    ///
    /// # Errors
    ///
    /// Those of `open`.
    pub fn set_style(&mut self, texts: &SessionTexts<'_>) -> Result<(), SessionError> {
        self.styled(gamhilon_session_set_style, texts)
    }

    /// Puts items, in any of the forms of `Texts`: each is new, or stands in place of the one with
    /// its id.
    ///
    /// # Errors
    ///
    /// `Fault` where the text is none; `Refused`.
    pub fn put_items(&mut self, items: &[u8]) -> Result<(), SessionError> {
        self.edited(gamhilon_session_put_items, items)
    }

    /// Removes the items of a JSON list of ids.
    ///
    /// # Errors
    ///
    /// `Fault` where the text is no such list; `Refused`.
    pub fn remove_items(&mut self, ids: &[u8]) -> Result<(), SessionError> {
        self.edited(gamhilon_session_remove_items, ids)
    }

    /// Puts the citations of a JSON list in place of all others.
    ///
    /// # Errors
    ///
    /// `Fault` where the text is no such list, or two citations have one key; `Refused`.
    pub fn set_citations(&mut self, citations: &[u8]) -> Result<(), SessionError> {
        self.edited(gamhilon_session_set_citations, citations)
    }

    /// What changed since the last answer, as JSON (docs/GUIDES/SESSIONS.md); at first all.
    ///
    /// # Errors
    ///
    /// `Fault` where an item is cited that isn't there; `LimitExceeded`; `Refused`.
    pub fn answer(&mut self) -> Result<String, SessionError> {
        self.asked(gamhilon_session_answer)
    }

    /// All citations and items, in the form of a first answer.
    ///
    /// # Errors
    ///
    /// Those of `answer`.
    pub fn whole(&mut self) -> Result<String, SessionError> {
        self.asked(gamhilon_session_whole)
    }

    /// What was read otherwise than it stands in the texts, as JSON.
    ///
    /// # Errors
    ///
    /// `Refused`.
    pub fn warnings(&mut self) -> Result<String, SessionError> {
        self.asked(gamhilon_session_warnings)
    }

    fn styled(&mut self, call: Style, texts: &SessionTexts<'_>) -> Result<(), SessionError> {
        let SessionTexts { style, locales, options } = *texts;
        let [style, locales, options] = [style, locales, options].map(GivenText::of);
        let mut held = Held { held: self.held };
        // SAFETY: the session is its owner's, and slices are valid for their lengths.
        let ended = unsafe { call(&mut held, style, locales, options) };
        self.held = held.held;
        self.checked(ended)
    }

    fn edited(&mut self, call: Edit, text: &[u8]) -> Result<(), SessionError> {
        let mut held = Held { held: self.held };
        // SAFETY: the session is its owner's, and a slice is valid for its length.
        let ended = unsafe { call(&mut held, GivenText::of(text)) };
        self.held = held.held;
        self.checked(ended)
    }

    fn asked(&mut self, call: Ask) -> Result<String, SessionError> {
        let text = self.filled(call);
        text.or_else(|ended| Err(self.error_of(ended)))
    }

    fn checked(&mut self, ended: u32) -> Result<(), SessionError> {
        match ended {
            status::OK => Ok(()),
            ended => Err(self.error_of(ended)),
        }
    }

    /// The error of a call that ended so.
    fn error_of(&mut self, ended: u32) -> SessionError {
        let message = self.filled(gamhilon_session_error).unwrap_or_default();
        match ended {
            status::DOCUMENT_REFUSED => SessionError::Fault(message),
            status::LIMIT_EXCEEDED => SessionError::LimitExceeded(message),
            ended => SessionError::Refused(Refusal::of(ended)),
        }
    }

    /// What a call puts into its buffer; or the status that it ends with. An answer that doesn't
    /// fit is kept for the next call.
    fn filled(&mut self, call: Ask) -> Result<String, u32> {
        let mut needed = 1 << 16;
        loop {
            let Some(mut buffer) = buffer_of(needed) else {
                return Err(status::OUT_OF_MEMORY);
            };
            let mut held = Held { held: self.held };
            // SAFETY: the session is its owner's, and the buffer is valid for its length.
            let ended = unsafe { call(&mut held, buffer.as_mut_ptr(), buffer.len(), &mut needed) };
            self.held = held.held;
            match ended {
                status::OK => {
                    buffer.truncate(needed);
                    return Ok(String::from_utf8(buffer).expect("an answer is UTF-8"));
                }
                status::BUFFER_TOO_SMALL => continue,
                ended => return Err(ended),
            }
        }
    }
}

impl Drop for Session {
    fn drop(&mut self) {
        // SAFETY: the session is its owner's, and isn't used again.
        unsafe { gamhilon_session_close(&mut Held { held: self.held }) }
    }
}
