//! Five functions of bindings/c/maluwesi.h, over slices. Counts are set to a number that no call leaves, so that a call
//! which leaves them alone is seen.

use maluwesi::ffi;

#[derive(Clone, Copy, Debug, PartialEq)]
pub struct Counts {
    pub ranges: usize,
    pub comparators: usize,
    pub identifiers: usize,
}

const UNSET: usize = 0x5A5A_5A5A;
const UNSET_COUNTS: Counts = Counts { ranges: UNSET, comparators: UNSET, identifiers: UNSET };

pub fn count(text: &[u8], mode: u8) -> (u64, Counts) {
    let mut counts = UNSET_COUNTS;
    let number = unsafe {
        ffi::maluwesi_count(
            text.as_ptr(),
            text.len(),
            mode,
            &mut counts.ranges,
            &mut counts.comparators,
            &mut counts.identifiers,
        )
    };
    (number, counts)
}

pub fn read(text: &[u8], mode: u8, words: &mut [u64], ids: &mut [u64]) -> (u64, Counts) {
    let mut counts = UNSET_COUNTS;
    let number = unsafe {
        ffi::maluwesi_read(
            text.as_ptr(),
            text.len(),
            mode,
            words.as_mut_ptr(),
            words.len(),
            ids.as_mut_ptr(),
            ids.len(),
            &mut counts.ranges,
            &mut counts.comparators,
            &mut counts.identifiers,
        )
    };
    (number, counts)
}

pub fn normal_text_len(text: &[u8], mode: u8, lent: usize) -> (u64, usize) {
    let mut length = UNSET;
    let number = unsafe { ffi::maluwesi_normal_text_len(text.as_ptr(), text.len(), mode, lent, &mut length) };
    (number, length)
}

pub fn normal_text(text: &[u8], mode: u8, out: &mut [u8]) -> (u64, usize) {
    let mut length = UNSET;
    let number =
        unsafe { ffi::maluwesi_normal_text(text.as_ptr(), text.len(), mode, out.as_mut_ptr(), out.len(), &mut length) };
    (number, length)
}

pub fn admit(text: &[u8], mode: u8, version: &[u8]) -> (u64, u8) {
    let mut admitted = 0x5A;
    let number =
        unsafe { ffi::maluwesi_admit(text.as_ptr(), text.len(), mode, version.as_ptr(), version.len(), &mut admitted) };
    (number, admitted)
}
