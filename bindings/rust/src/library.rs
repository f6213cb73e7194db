//! The C library. Nothing compares the declarations below with the library's: they are those of `include/jskw.h`. Each
//! comment on safety says why a call keeps to what the header asks of callers.

use std::cell::RefCell;
use std::ffi::c_void;
use std::ptr::null_mut;
use std::sync::Once;

extern "C" {
    fn jskw_version(buffer: *mut u8, room: usize, length: *mut usize) -> u32;
    fn jskw_compile(
        draft: u32,
        vocabularies: u32,
        overridden: *const u8,
        overridden_size: usize,
        bytes: *const u8,
        size: usize,
        schema: *mut Handle,
        buffer: *mut u8,
        room: usize,
        length: *mut usize,
    ) -> u32;
    fn jskw_unchecked(
        draft: u32,
        vocabularies: u32,
        overridden: *const u8,
        overridden_size: usize,
        bytes: *const u8,
        size: usize,
        buffer: *mut u8,
        room: usize,
        length: *mut usize,
    ) -> u32;
    fn jskw_share(from: *mut Handle, to: *mut Handle) -> u32;
    fn jskw_is_valid(schema: *mut Handle, bytes: *const u8, size: usize) -> u32;
    fn jskw_first_error(
        schema: *mut Handle,
        bytes: *const u8,
        size: usize,
        buffer: *mut u8,
        room: usize,
        length: *mut usize,
    ) -> u32;
    fn jskw_errors(
        schema: *mut Handle,
        bytes: *const u8,
        size: usize,
        limit: u64,
        buffer: *mut u8,
        room: usize,
        length: *mut usize,
    ) -> u32;
    fn jskw_evaluate(
        schema: *mut Handle,
        bytes: *const u8,
        size: usize,
        buffer: *mut u8,
        room: usize,
        length: *mut usize,
    ) -> u32;
    fn jskw_free(schema: *mut Handle);
}

pub(crate) const VALID: u32 = 0;
pub(crate) const INVALID: u32 = 1;
pub(crate) const NOT_JSON: u32 = 3;
pub(crate) const INEXACT: u32 = 4;
pub(crate) const BAD_SCHEMA: u32 = 5;
pub(crate) const NO_MEMORY: u32 = 8;
const TOO_SMALL: u32 = 9;

/// The interface that the declarations are of, as the version begins with it.
const INTERFACE: &str = "jskw 0.3.";

/// A status and a text.
pub(crate) type Told = (u32, String);

/// What is asked of an instance besides whether it is valid.
#[derive(Clone, Copy)]
pub(crate) enum Report {
    FirstError,
    /// The first errors, as many as the number says; all if it is 0.
    Errors(u64),
    Evaluation,
}

/// A handle of a compiled schema, or of none. A call needs it alone, as `&mut` says.
#[repr(C)]
pub(crate) struct Handle {
    compiled: *mut c_void,
}

// SAFETY: a handle may pass from thread to thread.
unsafe impl Send for Handle {}

impl Handle {
    pub(crate) fn empty() -> Handle {
        Handle { compiled: null_mut() }
    }

    pub(crate) fn is_empty(&self) -> bool {
        self.compiled.is_null()
    }

    /// Compiles a schema into this handle.
    pub(crate) fn compile(&mut self, draft: u32, vocabularies: u32, overridden: &str, schema: &[u8]) -> Told {
        check_interface();
        // SAFETY: both texts are live slices, whose pointers are never null, and the buffer is lent to the call alone.
        asked(|buffer, room, length| unsafe {
            jskw_compile(
                draft,
                vocabularies,
                overridden.as_ptr(),
                overridden.len(),
                schema.as_ptr(),
                schema.len(),
                self,
                buffer,
                room,
                length,
            )
        })
    }

    /// Puts the schema of this handle into another one too, and returns the status.
    pub(crate) fn share(&mut self, other: &mut Handle) -> u32 {
        // SAFETY: two `&mut` are two handles.
        unsafe { jskw_share(self, other) }
    }

    /// Returns the status of an instance.
    pub(crate) fn is_valid(&mut self, instance: &[u8]) -> u32 {
        // SAFETY: the slice is live.
        unsafe { jskw_is_valid(self, instance.as_ptr(), instance.len()) }
    }

    /// Returns the report on an instance.
    pub(crate) fn report(&mut self, report: Report, instance: &[u8]) -> Told {
        let (bytes, size) = (instance.as_ptr(), instance.len());
        // SAFETY: the slice is live, and the buffer is lent to the call alone.
        asked(|buffer, room, length| unsafe {
            match report {
                Report::FirstError => jskw_first_error(self, bytes, size, buffer, room, length),
                Report::Errors(limit) => jskw_errors(self, bytes, size, limit, buffer, room, length),
                Report::Evaluation => jskw_evaluate(self, bytes, size, buffer, room, length),
            }
        })
    }
}

impl Drop for Handle {
    fn drop(&mut self) {
        // SAFETY: nothing uses the handle after this.
        unsafe { jskw_free(self) }
    }
}

/// Returns what is not checked of a schema.
pub(crate) fn unchecked(draft: u32, vocabularies: u32, overridden: &str, schema: &[u8]) -> Told {
    check_interface();
    // SAFETY: both texts are live slices, whose pointers are never null, and the buffer is lent to the call alone.
    asked(|buffer, room, length| unsafe {
        jskw_unchecked(
            draft,
            vocabularies,
            overridden.as_ptr(),
            overridden.len(),
            schema.as_ptr(),
            schema.len(),
            buffer,
            room,
            length,
        )
    })
}

/// Returns the lines of the library's version.
pub(crate) fn version() -> String {
    // SAFETY: the buffer is lent to the call alone.
    asked(|buffer, room, length| unsafe { jskw_version(buffer, room, length) }).1
}

/// Panics if the library has another interface, whose functions must not be called.
fn check_interface() {
    static CHECKED: Once = Once::new();
    CHECKED.call_once(|| {
        let version = version();
        assert!(version.starts_with(INTERFACE), "the library is {version:?}, and this crate is for {INTERFACE}x");
    });
}

/// So many bytes a buffer has at first, and at most if it is kept for later calls of the thread.
const FIRST: usize = 1 << 16;
const KEPT: usize = 1 << 20;

/// Makes a call with a buffer that is large enough.
fn asked(mut call: impl FnMut(*mut u8, usize, *mut usize) -> u32) -> Told {
    thread_local!(static KEPT_BUFFER: RefCell<Vec<u8>> = RefCell::new(Vec::new()));
    // a thread that ends has no more values of its own
    let mut buffer = KEPT_BUFFER.try_with(RefCell::take).unwrap_or_default();
    buffer.resize(buffer.len().max(FIRST), 0);
    loop {
        let mut length = 0;
        let status = call(buffer.as_mut_ptr(), buffer.len(), &mut length);
        if status != TOO_SMALL {
            let text = String::from_utf8(buffer[..length].to_vec()).expect("the library writes UTF-8");
            if buffer.len() <= KEPT {
                let _ = KEPT_BUFFER.try_with(|kept| kept.replace(buffer));
            }
            return (status, text);
        }
        buffer.resize(length, 0);
    }
}

/// Returns the words of each line of a text, without their escapes.
pub(crate) fn lines(text: &str) -> impl Iterator<Item = Vec<String>> + '_ {
    // `str::lines` would take a carriage return away, which a name may end with
    text.split_terminator('\n').map(words)
}

/// Returns the words of a line, without their escapes.
pub(crate) fn words(line: &str) -> Vec<String> {
    line.split('\t').map(plain).collect()
}

fn plain(word: &str) -> String {
    let parts: Vec<String> = word.split("\\\\").map(|part| part.replace("\\t", "\t").replace("\\n", "\n")).collect();
    parts.join("\\")
}
