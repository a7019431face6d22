//! cmark-gfm and md4c, found when the program runs: neither is needed to build it.

#![allow(unsafe_code)]

use std::ffi::{c_char, c_int, c_uint, c_void, CStr, CString};
use std::hint::black_box;
use std::mem::transmute;

extern "C" {
    fn dlopen(file: *const c_char, flags: c_int) -> *mut c_void;
    fn dlsym(library: *mut c_void, name: *const c_char) -> *mut c_void;
    fn free(memory: *mut c_void);
}

/// RTLD_NOW
const AT_ONCE: c_int = 2;

/// The function of this name in the first library of the list that is installed.
fn function(files: &[String], name: &CStr) -> Option<*mut c_void> {
    let open = |file: &String| {
        let file = CString::new(file.as_str()).ok()?;
        // SAFETY: the name is a C string; a library that is opened stays open.
        let library = unsafe { dlopen(file.as_ptr(), AT_ONCE) };
        (!library.is_null()).then_some(library)
    };
    let library = files.iter().find_map(open)?;
    // SAFETY: the library is open and the name is a C string.
    let function = unsafe { dlsym(library, name.as_ptr()) };
    (!function.is_null()).then_some(function)
}

type ToHtml = unsafe extern "C" fn(*const c_char, usize, c_int) -> *mut c_char;

/// cmark-gfm, without its extensions.
pub struct CmarkGfm {
    to_html: ToHtml,
}

impl CmarkGfm {
    /// CMARK_OPT_UNSAFE: links are written as they stand.
    const OPTIONS: c_int = 1 << 17;

    pub fn find() -> Option<CmarkGfm> {
        let versions = (0..=30).map(|version| format!("libcmark-gfm.so.0.29.0.gfm.{version}"));
        let mut files = vec!["libcmark-gfm.so".to_string()];
        files.extend(versions);
        let to_html = function(&files, c"cmark_markdown_to_html")?;
        // SAFETY: cmark-gfm.h declares the function with these types.
        let to_html = unsafe { transmute::<*mut c_void, ToHtml>(to_html) };
        Some(CmarkGfm { to_html })
    }

    /// Makes the page and frees it; returns its first byte.
    pub fn page(&self, note: &[u8]) -> c_char {
        let note = black_box(note);
        // SAFETY: the note is lent for the call; the page is a C string of cmark-gfm's standard
        // allocator, which the caller frees.
        unsafe {
            let page = (self.to_html)(note.as_ptr().cast(), note.len(), Self::OPTIONS);
            let first = *page;
            free(page.cast());
            first
        }
    }
}

/// What md4c gives each part of the page to.
type Take = unsafe extern "C" fn(*const c_char, c_uint, *mut c_void);
type MdHtml =
    unsafe extern "C" fn(*const c_char, c_uint, Take, *mut c_void, c_uint, c_uint) -> c_int;

/// md4c with its page writer, as plain CommonMark.
pub struct Md4c {
    html: MdHtml,
}

impl Md4c {
    pub fn find() -> Option<Md4c> {
        let files = ["libmd4c-html.so.0", "libmd4c-html.so"].map(String::from);
        let html = function(&files, c"md_html")?;
        // SAFETY: md4c-html.h declares the function with these types.
        let html = unsafe { transmute::<*mut c_void, MdHtml>(html) };
        Some(Md4c { html })
    }

    /// Makes the page in memory of its own, as md4c's program does, and frees it; returns its length.
    pub fn page(&self, note: &[u8]) -> usize {
        let note = black_box(note);
        let mut page: Vec<u8> = Vec::with_capacity(note.len() + note.len() / 8 + 64);
        // SAFETY: note and page are lent for the call, and the page is what `append` is given.
        let failed = unsafe {
            let page = (&raw mut page).cast();
            (self.html)(
                note.as_ptr().cast(),
                note.len() as c_uint,
                append,
                page,
                0,
                0,
            )
        };
        assert_eq!(failed, 0, "md4c reads the note");
        black_box(&page).len()
    }
}

/// Appends a part of the page.
unsafe extern "C" fn append(part: *const c_char, length: c_uint, page: *mut c_void) {
    // SAFETY: md4c gives a part of so many bytes, and back what the caller gave it.
    let (part, page) = unsafe {
        let part = std::slice::from_raw_parts(part.cast::<u8>(), length as usize);
        (part, &mut *page.cast::<Vec<u8>>())
    };
    page.extend_from_slice(part);
}
