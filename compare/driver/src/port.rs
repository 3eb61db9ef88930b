//! The port, through its static library.

/// A refusal's number, or 0, and a length: that of the text, or with 9 the one that is needed.
#[repr(C)]
#[derive(Debug, Clone, Copy, PartialEq, Eq)]
pub struct Answer {
    pub refusal: u32,
    pub len: usize,
}

/// The number that stands for root lowering among the calls.
pub const ROOT: u32 = u32::MAX;

mod c {
    use super::Answer;

    unsafe extern "C" {
        pub fn giltnewt_open(bytes: *const u8, len: usize) -> u32;
        pub fn giltnewt_dump_whole(bytes: *const u8, len: usize, calls: *const u32, count: usize, text: *mut u8, room: usize) -> Answer;
        pub fn giltnewt_print_calls(bytes: *const u8, len: usize, calls: *const u32, count: usize, text: *mut u8, room: usize) -> Answer;
        pub fn giltnewt_print(bytes: *const u8, len: usize, text: *mut u8, room: usize) -> Answer;
        pub fn giltnewt_open_often(bytes: *const u8, len: usize, rounds: u32) -> u32;
        pub fn giltnewt_lower_often(bytes: *const u8, len: usize, rounds: u32) -> u32;
        pub fn giltnewt_print_often(bytes: *const u8, len: usize, rounds: u32, text: *mut u8, room: usize) -> u32;
    }
}

pub fn open(bytes: &[u8]) -> u32 {
    unsafe { c::giltnewt_open(bytes.as_ptr(), bytes.len()) }
}

pub fn dump(bytes: &[u8], calls: &[u32], text: &mut [u8]) -> Answer {
    unsafe { c::giltnewt_dump_whole(bytes.as_ptr(), bytes.len(), calls.as_ptr(), calls.len(), text.as_mut_ptr(), text.len()) }
}

pub fn print_calls(bytes: &[u8], calls: &[u32], text: &mut [u8]) -> Answer {
    unsafe { c::giltnewt_print_calls(bytes.as_ptr(), bytes.len(), calls.as_ptr(), calls.len(), text.as_mut_ptr(), text.len()) }
}

pub fn print(bytes: &[u8], text: &mut [u8]) -> Answer {
    unsafe { c::giltnewt_print(bytes.as_ptr(), bytes.len(), text.as_mut_ptr(), text.len()) }
}

pub fn open_often(bytes: &[u8], rounds: u32) -> u32 {
    unsafe { c::giltnewt_open_often(bytes.as_ptr(), bytes.len(), rounds) }
}

pub fn lower_often(bytes: &[u8], rounds: u32) -> u32 {
    unsafe { c::giltnewt_lower_often(bytes.as_ptr(), bytes.len(), rounds) }
}

pub fn print_often(bytes: &[u8], rounds: u32, text: &mut [u8]) -> u32 {
    unsafe { c::giltnewt_print_often(bytes.as_ptr(), bytes.len(), rounds, text.as_mut_ptr(), text.len()) }
}
