//! The C functions, as `include/latsefidy.h` declares them.

pub const PREVIEW: usize = 3;
pub const RECORD: usize = 10;
pub const CODE: usize = 5;

#[rustfmt::skip]
extern "C" {
    pub fn latsefidy_encode(
        field: u32, r: u32, n: u32, k: u32, wiring: u32, message: *const u8, message_len: usize,
        codeword: *mut u8, codeword_len: usize,
    ) -> u32;
    pub fn latsefidy_encode_strips(
        field: u32, r: u32, n: u32, k: u32, wiring: u32, messages: *const u8, messages_len: usize,
        codewords: *mut u8, codewords_len: usize,
    ) -> u32;
    pub fn latsefidy_weights(
        field: u32, r: u32, n: u32, k: u32, wiring: u32, slot: u32, weights: *mut u8, weights_len: usize,
    ) -> u32;
    pub fn latsefidy_repair(
        field: u32, r: u32, n: u32, k: u32, wiring: u32, slot: u32, mates: *const u8, mates_len: usize,
    ) -> u64;
    pub fn latsefidy_rebuild(
        field: u32, r: u32, n: u32, k: u32, wiring: u32, slot: u32, strips: *const u8, strips_len: usize,
        out: *mut u8, out_len: usize,
    ) -> u32;
    pub fn latsefidy_view(
        field: u32, r: u32, n: u32, k: u32, wiring: u32, slot: u32, word: *const u8, word_len: usize,
    ) -> u64;
    pub fn latsefidy_local_pass(
        field: u32, r: u32, n: u32, k: u32, wiring: u32, word: *mut u8, word_len: usize,
        marks: *mut u8, marks_len: usize,
    ) -> u64;
    pub fn latsefidy_decode(
        field: u32, r: u32, n: u32, k: u32, wiring: u32, word: *const u8, word_len: usize,
        marks: *const u8, marks_len: usize, message: *mut u8, message_len: usize,
        work: *mut u8, work_len: usize,
    ) -> u32;
    pub fn latsefidy_decode_near(
        field: u32, r: u32, n: u32, k: u32, wiring: u32, word: *const u8, word_len: usize,
        marks: *const u8, marks_len: usize, message: *mut u8, message_len: usize,
        work: *mut u8, work_len: usize,
    ) -> u64;
    pub fn latsefidy_grade(
        field: u32, r: u32, n: u32, k: u32, wiring: u32, marks: *const u8, marks_len: usize,
        work: *mut u8, work_len: usize,
    ) -> u64;
    pub fn latsefidy_preview(
        field: u32, r: u32, n: u32, k: u32, wiring: u32, slot: u32, marks: *const u8, marks_len: usize,
        work: *mut u8, work_len: usize, preview: *mut u32, preview_len: usize,
    ) -> u32;
    pub fn latsefidy_record(
        field: u32, r: u32, n: u32, k: u32, wiring: u32, word: *const u8, word_len: usize,
        marks: *const u8, marks_len: usize, message: *mut u8, message_len: usize,
        work: *mut u8, work_len: usize, record: *mut u32, record_len: usize,
    ) -> u32;
    pub fn latsefidy_read_sheet(
        sheet: *const u8, sheet_len: usize, word: *mut u8, word_len: usize,
        marks: *mut u8, marks_len: usize, code: *mut u32, code_len: usize,
    ) -> u32;
    pub fn latsefidy_write_sheet(
        field: u32, r: u32, n: u32, k: u32, wiring: u32, word: *const u8, word_len: usize,
        marks: *const u8, marks_len: usize, sheet: *mut u8, sheet_len: usize,
    ) -> u32;
    pub fn latsefidy_report(
        input: *const u8, input_len: usize, text: *mut u8, text_len: usize,
    ) -> u64;
    pub fn latsefidy_preview_sheet(
        input: *const u8, input_len: usize, text: *mut u8, text_len: usize,
    ) -> u64;
}
