//! The C calls of include/wimtaze.h, as Rust declares them.

extern "C" {
    pub fn wimtaze_empty(number: u64, sheet_out: *mut u8, sheet_out_length: usize) -> u64;
    pub fn wimtaze_receive(
        sheet: *const u8,
        sheet_length: usize,
        line: *const u8,
        line_length: usize,
        sheet_out: *mut u8,
        sheet_out_length: usize,
    ) -> u64;
    pub fn wimtaze_receive_at(
        sheet: *const u8,
        sheet_length: usize,
        line: *const u8,
        line_length: usize,
        gap: u64,
        sheet_out: *mut u8,
        sheet_out_length: usize,
    ) -> u64;
    pub fn wimtaze_moved(gap: u64, shift: i32) -> u64;
    pub fn wimtaze_type(
        sheet: *const u8,
        sheet_length: usize,
        gap: u64,
        code_point: u32,
        sheet_out: *mut u8,
        sheet_out_length: usize,
        line_out: *mut u8,
        line_out_length: usize,
    ) -> u64;
    pub fn wimtaze_erase(
        sheet: *const u8,
        sheet_length: usize,
        place: u64,
        sheet_out: *mut u8,
        sheet_out_length: usize,
        line_out: *mut u8,
        line_out_length: usize,
    ) -> u64;
    pub fn wimtaze_restore(
        sheet: *const u8,
        sheet_length: usize,
        laptop: u64,
        clock: u64,
        sheet_out: *mut u8,
        sheet_out_length: usize,
        line_out: *mut u8,
        line_out_length: usize,
    ) -> u64;
    pub fn wimtaze_paste(
        sheet: *const u8,
        sheet_length: usize,
        gap: u64,
        text: *const u8,
        text_length: usize,
        sheet_out: *mut u8,
        sheet_out_length: usize,
        lines_out: *mut u8,
        lines_out_length: usize,
    ) -> u64;
    pub fn wimtaze_build(
        number: u64,
        heap: *const u8,
        heap_length: usize,
        sheet_out: *mut u8,
        sheet_out_length: usize,
    ) -> u64;
    pub fn wimtaze_load(sheet: *const u8, sheet_length: usize, sheet_out: *mut u8, sheet_out_length: usize) -> u64;
    pub fn wimtaze_list(sheet: *const u8, sheet_length: usize, list_out: *mut u8, list_out_length: usize) -> u64;
    pub fn wimtaze_answer(
        sheet: *const u8,
        sheet_length: usize,
        list: *const u8,
        list_length: usize,
        answer_out: *mut u8,
        answer_out_length: usize,
    ) -> u64;
    pub fn wimtaze_text(sheet: *const u8, sheet_length: usize, text_out: *mut u8, text_out_length: usize) -> u64;
    pub fn wimtaze_counts(sheet: *const u8, sheet_length: usize) -> u64;
    pub fn wimtaze_upgrade(old: *const u8, old_length: usize, sheet_out: *mut u8, sheet_out_length: usize) -> u64;
    pub fn wimtaze_downgrade(sheet: *const u8, sheet_length: usize, old_out: *mut u8, old_out_length: usize) -> u64;
    pub fn wimtaze_archive(
        sheet: *const u8,
        sheet_length: usize,
        archive_out: *mut u8,
        archive_out_length: usize,
    ) -> u64;
    pub fn wimtaze_unarchive(
        archive: *const u8,
        archive_length: usize,
        sheet_out: *mut u8,
        sheet_out_length: usize,
    ) -> u64;
}
