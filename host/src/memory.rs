//! Memory that is only touched where it is used: zeroes that the system gives page by page.

use std::alloc::{Layout, alloc_zeroed};

/// Numbers of which all zeroes are a value.
pub(crate) trait Number: Copy + 'static {}
impl Number for u8 {}
impl Number for u32 {}

/// So many zeroes, or none if the system has no room for them. A `vec![0; len]` would end the program then.
pub(crate) fn zeroes<T: Number>(len: usize) -> Option<Vec<T>> {
    let layout = Layout::array::<T>(len).ok()?;
    if layout.size() == 0 {
        return Some(Vec::new());
    }
    // SAFETY: the layout has bytes, and is that of `len` numbers, which a Vec of that capacity has; all are zero.
    unsafe {
        let start = alloc_zeroed(layout);
        if start.is_null() { None } else { Some(Vec::from_raw_parts(start.cast(), len, len)) }
    }
}
