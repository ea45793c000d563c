//! A safe function for each of the shelf's calls of [`ffi`](crate::ffi), as in calls.rs.

use crate::ffi;
use crate::calls::{accepted, mode};
use crate::{Compat, Refusal};
use std::ops::Range;

pub const SHELF_BYTES: usize = 37_890;

pub fn clear(shelf: &mut [u8]) -> Result<(), Refusal> {
    // SAFETY: the shelf is an exclusive slice with its length.
    accepted(unsafe { ffi::maluwesi_shelf_clear(shelf.as_mut_ptr(), shelf.len()) })
}

pub fn add(shelf: &mut [u8], code: u16, compat: Compat, text: &[u8]) -> Result<(), Refusal> {
    // SAFETY: shelf and text are slices, each with its length; the shelf is exclusive.
    accepted(unsafe {
        ffi::maluwesi_shelf_add(
            shelf.as_mut_ptr(),
            shelf.len(),
            code,
            mode(compat),
            text.as_ptr(),
            text.len(),
        )
    })
}

pub fn remove(shelf: &mut [u8], code: u16) -> Result<(), Refusal> {
    // SAFETY: the shelf is an exclusive slice with its length.
    accepted(unsafe { ffi::maluwesi_shelf_remove(shelf.as_mut_ptr(), shelf.len(), code) })
}

/// Where the text of the first entry with the code stands in the shelf.
pub fn find(shelf: &[u8], code: u16) -> Result<Range<usize>, Refusal> {
    let (mut place, mut len) = (0, 0);
    // SAFETY: the shelf is a slice with its length; place and len are locals.
    let number =
        unsafe { ffi::maluwesi_shelf_find(shelf.as_ptr(), shelf.len(), code, &mut place, &mut len) };
    accepted(number).map(|()| place..place + len)
}

pub fn first_fit(shelf: &[u8], version: &[u8]) -> Result<Option<u16>, Refusal> {
    let (mut found, mut code) = (0, 0);
    // SAFETY: shelf and version are slices, each with its length, and only read; found and code
    // are locals.
    let number = unsafe {
        ffi::maluwesi_shelf_first_fit(
            shelf.as_ptr(),
            shelf.len(),
            version.as_ptr(),
            version.len(),
            &mut found,
            &mut code,
        )
    };
    accepted(number).map(|()| (found == 1).then_some(code))
}

pub fn lookup(shelf: &[u8], version: &[u8]) -> Result<Option<u16>, Refusal> {
    let (mut found, mut code) = (0, 0);
    // SAFETY: shelf and version are slices, each with its length, and only read; found and code
    // are locals.
    let number = unsafe {
        ffi::maluwesi_shelf_lookup(
            shelf.as_ptr(),
            shelf.len(),
            version.as_ptr(),
            version.len(),
            &mut found,
            &mut code,
        )
    };
    accepted(number).map(|()| (found == 1).then_some(code))
}
