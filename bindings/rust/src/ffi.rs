//! The functions of libmaluwesi.a as bindings/c/maluwesi.h declares them, for a caller that lends
//! its own memory.
//!
//! The header asks that no pointer is null, that a length counts what may be read or written at its
//! pointer, and that what is written overlaps nothing else.

extern "C" {
    pub fn maluwesi_count(
        text: *const u8,
        text_len: usize,
        mode: u8,
        ranges: *mut usize,
        comparators: *mut usize,
        identifiers: *mut usize,
    ) -> u64;

    pub fn maluwesi_read(
        text: *const u8,
        text_len: usize,
        mode: u8,
        words: *mut u64,
        words_len: usize,
        ids: *mut u64,
        ids_len: usize,
        ranges: *mut usize,
        comparators: *mut usize,
        identifiers: *mut usize,
    ) -> u64;

    pub fn maluwesi_normal_text_len(
        text: *const u8,
        text_len: usize,
        mode: u8,
        lent: usize,
        len: *mut usize,
    ) -> u64;

    pub fn maluwesi_normal_text(
        text: *const u8,
        text_len: usize,
        mode: u8,
        out: *mut u8,
        out_len: usize,
        len: *mut usize,
    ) -> u64;

    pub fn maluwesi_admit(
        text: *const u8,
        text_len: usize,
        mode: u8,
        version: *const u8,
        version_len: usize,
        admitted: *mut u8,
    ) -> u64;

    pub fn maluwesi_identifier_bytes(
        text: *const u8,
        text_len: usize,
        place: usize,
        len: usize,
        from: *mut usize,
        size: *mut usize,
    );

    pub fn maluwesi_read_normal_text(
        text: *const u8,
        text_len: usize,
        mode: u8,
        other: u8,
        out: *mut u8,
        out_len: usize,
        words: *mut u64,
        words_len: usize,
        ids: *mut u64,
        ids_len: usize,
        normal: *mut u8,
        ranges: *mut usize,
        comparators: *mut usize,
        identifiers: *mut usize,
    ) -> u64;

    pub fn maluwesi_equal_readings(
        text: *const u8,
        text_len: usize,
        mode: u8,
        text2: *const u8,
        text2_len: usize,
        mode2: u8,
        out: *mut u8,
        out_len: usize,
        out2: *mut u8,
        out2_len: usize,
        equal: *mut u8,
    ) -> u64;

    pub fn maluwesi_shelf_clear(shelf: *mut u8, shelf_len: usize) -> u64;

    pub fn maluwesi_shelf_add(
        shelf: *mut u8,
        shelf_len: usize,
        code: u16,
        mode: u8,
        text: *const u8,
        text_len: usize,
    ) -> u64;

    pub fn maluwesi_shelf_remove(shelf: *mut u8, shelf_len: usize, code: u16) -> u64;

    pub fn maluwesi_shelf_find(
        shelf: *const u8,
        shelf_len: usize,
        code: u16,
        place: *mut usize,
        len: *mut usize,
    ) -> u64;

    pub fn maluwesi_shelf_first_fit(
        shelf: *const u8,
        shelf_len: usize,
        version: *const u8,
        version_len: usize,
        found: *mut u8,
        code: *mut u16,
    ) -> u64;

    pub fn maluwesi_shelf_lookup(
        shelf: *const u8,
        shelf_len: usize,
        version: *const u8,
        version_len: usize,
        found: *mut u8,
        code: *mut u16,
    ) -> u64;
}
