//! The C library's search in unpacked bytes, to measure the archive against.

use std::os::raw::c_void;

extern "C" {
    fn memmem(text: *const c_void, text_len: usize, pattern: *const c_void, pattern_len: usize) -> *mut c_void;
}

/// Where a pattern stands first.
fn first(text: &[u8], pattern: &[u8]) -> Option<usize> {
    // SAFETY: each pointer and its length come from one live slice, which is only read.
    let found = unsafe { memmem(text.as_ptr().cast(), text.len(), pattern.as_ptr().cast(), pattern.len()) };
    if found.is_null() {
        None
    } else {
        Some(found as usize - text.as_ptr() as usize)
    }
}

/// All places where a pattern stands, overlapping ones too: after each it goes on one byte behind it. The first are
/// listed, as many as the slice holds, and all are counted.
pub fn search_text(text: &[u8], pattern: &[u8], hits: &mut [u32]) -> u32 {
    let (mut from, mut found) = (0, 0);
    while let Some(place) = first(&text[from..], pattern) {
        if let Some(hit) = hits.get_mut(found) {
            *hit = (from + place) as u32;
        }
        found += 1;
        from += place + 1;
    }
    found as u32
}

#[cfg(test)]
mod tests {
    use super::*;
    use crate::plain;

    #[test]
    fn it_finds_what_the_plain_search_finds() {
        let text = b"abracadabra aaaa abracadabra";
        for start in 0..text.len() {
            for end in start + 1..=text.len() {
                let (mut hits, mut expected) = ([9; 12], [9; 12]);
                let found = search_text(text, &text[start..end], &mut hits);
                assert_eq!(plain::search_text(text, &text[start..end], &mut expected), Ok(found));
                assert_eq!(hits, expected);
            }
        }
        assert_eq!(search_text(text, b"abrx", &mut []), 0);
        assert_eq!(search_text(b"", b"a", &mut []), 0);
    }
}
