//! Texts as the library takes them.
use std::marker::PhantomData;

/// gamhilon_text of gamhilon.h.
#[repr(C)]
#[derive(Clone, Copy)]
pub(crate) struct GivenText<'t> {
    bytes: *const u8,
    length: usize,
    lent: PhantomData<&'t [u8]>,
}

impl<'t> GivenText<'t> {
    /// This text.
    pub(crate) fn of(text: &'t [u8]) -> GivenText<'t> {
        GivenText { bytes: text.as_ptr(), length: text.len(), lent: PhantomData }
    }
}
