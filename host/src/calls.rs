//! The proved calls on lent memory: each answers exactly under its condition, and a refusal writes nothing.
//!
//! This is the boundary. What it trusts is that the declarations in [`exported`] are those of the crate `calls`; everything
//! else that the calls want of memory (pointers that are aligned and hold what the lengths say, nothing lent twice) a Rust slice
//! has by its type.

/// What is said of bytes: a clear view, one that isn't, none, or that there are too few work words to tell.
#[derive(Clone, Copy, Debug, PartialEq, Eq)]
pub enum Judged {
    Plain,
    Unclear,
    NoView,
    Few,
}

/// What came of a text: so many bytes written at the front of what was lent for them, or why not.
#[derive(Clone, Copy, Debug, PartialEq, Eq)]
pub enum Made {
    Done(usize),
    /// The view isn't clear.
    Muddy,
    /// The bytes say no view.
    NoSuch,
    /// The source isn't of the form of the view's sources.
    NoSource,
    /// The look isn't of the form of the view's looks.
    NoLook,
    /// The result is longer than the bytes lent for it.
    Full,
    /// There are fewer work words than [`words`].
    Small,
}

/// What came of a text in notation: a row of so many bytes, where it goes wrong with a message of so many bytes, or a row that
/// is longer than the bytes lent for it.
#[derive(Clone, Copy, Debug, PartialEq, Eq)]
pub enum Parsed {
    Done(usize),
    NoView { line: usize, column: usize, told: usize },
    Full,
}

/// The longest row of a view.
pub const LONGEST_ROW: usize = 1024;

/// The work words that judging a view of so many bytes wants.
pub fn judge_words(view: usize) -> usize {
    let counted = view.min(LONGEST_ROW + 1);
    4096 + counted * counted
}

/// The work words that a call on a view and on texts of so many bytes together wants; none if there is no such number.
pub fn words(view: usize, texts: usize) -> Option<usize> {
    let cells = (1 + view.min(LONGEST_ROW + 1) as u128) * (1 + texts as u128);
    usize::try_from(judge_words(view) as u128 + 64 + cells / 8).ok()
}

/// Whether the bytes say a view, and whether it is clear.
pub fn judge(view: &[u8], work: &mut [u32]) -> Judged {
    // SAFETY: slices, as `exported` says.
    let number = unsafe { exported::views_judge(view.as_ptr(), view.len(), work.as_mut_ptr(), work.len()) };
    match number {
        0 => Judged::Plain,
        1 => Judged::Unclear,
        2 => Judged::NoView,
        3 => Judged::Few,
        _ => unreachable!("views_judge gave {number}"),
    }
}

/// The look of a source.
pub fn show(view: &[u8], source: &[u8], out: &mut [u8], work: &mut [u32]) -> Made {
    let mut written = 0;
    // SAFETY: slices, as `exported` says.
    let number = unsafe {
        exported::views_show(
            view.as_ptr(),
            view.len(),
            source.as_ptr(),
            source.len(),
            out.as_mut_ptr(),
            out.len(),
            work.as_mut_ptr(),
            work.len(),
            &mut written,
        )
    };
    made(number, written)
}

/// The source that is made from a look alone.
pub fn make(view: &[u8], look: &[u8], out: &mut [u8], work: &mut [u32]) -> Made {
    let mut written = 0;
    // SAFETY: slices, as `exported` says.
    let number = unsafe {
        exported::views_make(
            view.as_ptr(),
            view.len(),
            look.as_ptr(),
            look.len(),
            out.as_mut_ptr(),
            out.len(),
            work.as_mut_ptr(),
            work.len(),
            &mut written,
        )
    };
    made(number, written)
}

/// The source that a look put back into a source gives.
pub fn put(view: &[u8], source: &[u8], look: &[u8], out: &mut [u8], work: &mut [u32]) -> Made {
    let mut written = 0;
    // SAFETY: slices, as `exported` says.
    let number = unsafe {
        exported::views_put(
            view.as_ptr(),
            view.len(),
            source.as_ptr(),
            source.len(),
            look.as_ptr(),
            look.len(),
            out.as_mut_ptr(),
            out.len(),
            work.as_mut_ptr(),
            work.len(),
            &mut written,
        )
    };
    made(number, written)
}

fn made(number: u32, written: usize) -> Made {
    match number {
        0 => Made::Done(written),
        1 => Made::Muddy,
        2 => Made::NoSuch,
        3 => Made::NoSource,
        4 => Made::NoLook,
        5 => Made::Full,
        6 => Made::Small,
        _ => unreachable!("a call on views gave {number}"),
    }
}

/// The row of the view that a text in notation says, or why it says none.
pub fn parse(text: &[u8], row: &mut [u8], message: &mut [u8]) -> Parsed {
    let mut written = 0;
    let mut place = exported::Place { line: 0, column: 0, told: 0 };
    // SAFETY: slices, as `exported` says.
    let number = unsafe {
        exported::views_parse(
            text.as_ptr(),
            text.len(),
            row.as_mut_ptr(),
            row.len(),
            &mut written,
            message.as_mut_ptr(),
            message.len(),
            &mut place,
        )
    };
    match number {
        0 => Parsed::Done(written),
        1 => Parsed::NoView { line: place.line, column: place.column, told: place.told },
        2 => Parsed::Full,
        _ => unreachable!("views_parse gave {number}"),
    }
}

/// The declarations of what the static library exports. A slice is a pointer and a length; each pointer is aligned, holds as
/// many values as its length says, and what is lent for writing is lent to nothing else. `views_parse` uses the allocator of the
/// C library.
#[doc(hidden)]
pub mod exported {
    #[repr(C)]
    pub struct Place {
        pub line: usize,
        pub column: usize,
        pub told: usize,
    }

    unsafe extern "C" {
        pub fn views_judge(view: *const u8, view_len: usize, work: *mut u32, work_len: usize) -> u32;

        pub fn views_show(
            view: *const u8,
            view_len: usize,
            source: *const u8,
            source_len: usize,
            out: *mut u8,
            out_len: usize,
            work: *mut u32,
            work_len: usize,
            written: &mut usize,
        ) -> u32;

        pub fn views_make(
            view: *const u8,
            view_len: usize,
            look: *const u8,
            look_len: usize,
            out: *mut u8,
            out_len: usize,
            work: *mut u32,
            work_len: usize,
            written: &mut usize,
        ) -> u32;

        pub fn views_put(
            view: *const u8,
            view_len: usize,
            source: *const u8,
            source_len: usize,
            look: *const u8,
            look_len: usize,
            out: *mut u8,
            out_len: usize,
            work: *mut u32,
            work_len: usize,
            written: &mut usize,
        ) -> u32;

        pub fn views_parse(
            text: *const u8,
            text_len: usize,
            row: *mut u8,
            row_len: usize,
            written: &mut usize,
            message: *mut u8,
            message_len: usize,
            place: &mut Place,
        ) -> u32;
    }
}
