//! The eleven calls as the archive has them; `include/havtsulen.h` describes each.
//!
//! A slice is a pointer and a length in elements, and the pointer is never null. The last slice is the
//! report. Buffers that are written to must not overlap any other slice of the call.

unsafe extern "C" {
    /// Report: the length of the longest well-formed UTF-8 start.
    pub fn havtsulen_well_formed_length(
        text: *const u8,
        text_length: usize,
        report: *mut usize,
        report_length: usize,
    ) -> usize;

    /// Judges the refusals 2 to 4 of a file. Report: 0.
    pub fn havtsulen_check_file(
        file: *const u8,
        file_length: usize,
        report: *mut usize,
        report_length: usize,
    ) -> usize;

    /// Fills the table of a file. Report: text bytes, sections, entries.
    pub fn havtsulen_read(
        file: *const u8,
        file_length: usize,
        text: *mut u8,
        text_length: usize,
        sections: *mut usize,
        sections_length: usize,
        entries: *mut usize,
        entries_length: usize,
        report: *mut usize,
        report_length: usize,
    ) -> usize;

    /// Looks up the first (`which` 0) or the last entry (any other number). Report: its index.
    pub fn havtsulen_find(
        section: *const u8,
        section_length: usize,
        key: *const u8,
        key_length: usize,
        which: usize,
        text: *const u8,
        text_length: usize,
        sections: *const usize,
        sections_length: usize,
        section_count: usize,
        entries: *const usize,
        entries_length: usize,
        entry_count: usize,
        report: *mut usize,
        report_length: usize,
    ) -> usize;

    /// An entry's value. Report: start, length; 0, 0 where there is none.
    pub fn havtsulen_value(
        index: usize,
        text: *const u8,
        text_length: usize,
        sections: *const usize,
        sections_length: usize,
        section_count: usize,
        entries: *const usize,
        entries_length: usize,
        entry_count: usize,
        report: *mut usize,
        report_length: usize,
    ) -> usize;

    /// The same, with a refusal where there is none. Report: start, length.
    pub fn havtsulen_value_check(
        index: usize,
        text: *const u8,
        text_length: usize,
        sections: *const usize,
        sections_length: usize,
        section_count: usize,
        entries: *const usize,
        entries_length: usize,
        entry_count: usize,
        report: *mut usize,
        report_length: usize,
    ) -> usize;

    /// Writes the normal text of a file. Report: its length, text bytes, sections, entries.
    pub fn havtsulen_normal_text(
        file: *const u8,
        file_length: usize,
        text: *mut u8,
        text_length: usize,
        sections: *mut usize,
        sections_length: usize,
        entries: *mut usize,
        entries_length: usize,
        out: *mut u8,
        out_length: usize,
        report: *mut usize,
        report_length: usize,
    ) -> usize;

    /// Splits a text into items. Report: items, bytes.
    pub fn havtsulen_split(
        text: *const u8,
        text_length: usize,
        bytes: *mut u8,
        bytes_length: usize,
        ends: *mut usize,
        ends_length: usize,
        report: *mut usize,
        report_length: usize,
    ) -> usize;

    /// Writes items as a text. Report: its length.
    pub fn havtsulen_write(
        bytes: *const u8,
        bytes_length: usize,
        ends: *const usize,
        ends_length: usize,
        out: *mut u8,
        out_length: usize,
        report: *mut usize,
        report_length: usize,
    ) -> usize;

    /// Reads a boolean. Report: 0 or 1.
    pub fn havtsulen_boolean(
        text: *const u8,
        text_length: usize,
        report: *mut usize,
        report_length: usize,
    ) -> usize;

    /// Reads a time span. Report: microseconds.
    pub fn havtsulen_span(
        text: *const u8,
        text_length: usize,
        report: *mut usize,
        report_length: usize,
    ) -> usize;
}
