//! The proved library's entry points (include/txoribeltza.h) over slices.

use second::pattern::Four;

#[repr(C)]
#[derive(Debug, PartialEq)]
pub struct Reply {
    pub number: u64,
    pub place: u64,
}

#[repr(C)]
#[derive(Debug, PartialEq)]
pub struct WorkOut {
    pub number: u64,
    pub place: u64,
    pub clocks: u64,
    pub links: u64,
    pub opened: u64,
    pub whole: u64,
}

#[repr(C)]
#[derive(Debug, PartialEq)]
pub struct Written {
    pub number: u64,
    pub place: u64,
    pub length: u64,
}

#[link(name = "export", kind = "static")]
extern "C" {
    fn txori_work_out(
        sheet: *const u8,
        sheet_length: usize,
        clocks: *mut i64,
        clocks_length: usize,
        links: *mut i64,
        links_length: usize,
    ) -> WorkOut;
    fn txori_close(sheet: *mut u8, sheet_length: usize, clock: usize) -> Reply;
    fn txori_quote(
        sheet: *const u8,
        sheet_length: usize,
        clock: usize,
        out: *mut u8,
        out_length: usize,
    ) -> Written;
    fn txori_list(
        sheet: *const u8,
        sheet_length: usize,
        text: *mut u8,
        text_length: usize,
    ) -> Written;
    fn txori_check(k: i64, K: i64, l: u64, n: u64, pattern: *const u8, length: usize) -> Reply;
    fn txori_first(k: i64, K: i64, l: u64, n: u64, pattern: *mut u8, length: usize) -> Reply;
    fn txori_next(k: i64, K: i64, l: u64, n: u64, pattern: *mut u8, length: usize) -> Reply;
}

// Slices are valid and aligned, and borrowed mutably they don't overlap: all that the header asks for.

pub fn work_out(sheet: &[u8], clocks: &mut [i64], links: &mut [i64]) -> WorkOut {
    unsafe {
        txori_work_out(
            sheet.as_ptr(),
            sheet.len(),
            clocks.as_mut_ptr(),
            clocks.len(),
            links.as_mut_ptr(),
            links.len(),
        )
    }
}

pub fn close(sheet: &mut [u8], clock: usize) -> Reply {
    unsafe { txori_close(sheet.as_mut_ptr(), sheet.len(), clock) }
}

pub fn quote(sheet: &[u8], clock: usize, out: &mut [u8]) -> Written {
    unsafe {
        txori_quote(
            sheet.as_ptr(),
            sheet.len(),
            clock,
            out.as_mut_ptr(),
            out.len(),
        )
    }
}

pub fn list(sheet: &[u8], text: &mut [u8]) -> Written {
    unsafe { txori_list(sheet.as_ptr(), sheet.len(), text.as_mut_ptr(), text.len()) }
}

pub fn check(four: &Four, pattern: &[u8]) -> Reply {
    let Four { low, high, l, n } = *four;
    unsafe { txori_check(low, high, l, n, pattern.as_ptr(), pattern.len()) }
}

pub fn first(four: &Four, pattern: &mut [u8]) -> Reply {
    let Four { low, high, l, n } = *four;
    unsafe { txori_first(low, high, l, n, pattern.as_mut_ptr(), pattern.len()) }
}

pub fn next(four: &Four, pattern: &mut [u8]) -> Reply {
    let Four { low, high, l, n } = *four;
    unsafe { txori_next(low, high, l, n, pattern.as_mut_ptr(), pattern.len()) }
}
