//! The functions of the static library: the only unsafe code of this crate.
//!
//! The declarations are those of `include/delzhomo.h`. Every function takes any slices and writes three numbers through pointers:
//! what was made where it answers true, the refusal where it answers false.

use std::ops::Range;

use crate::{Refusal, Totals};

unsafe extern "C" {
    fn delzhomo_measure(
        unit: *const u8,
        unit_length: usize,
        first: *mut usize,
        second: *mut usize,
        third: *mut usize,
    ) -> bool;

    fn delzhomo_lower(
        unit: *const u8,
        unit_length: usize,
        out: *mut u8,
        out_length: usize,
        marks: *mut u32,
        marks_length: usize,
        first: *mut usize,
        second: *mut usize,
        third: *mut usize,
    ) -> bool;

    fn delzhomo_resolve(
        listing: *const u8,
        listing_length: usize,
        marks: *const u32,
        marks_length: usize,
        out: *mut u8,
        out_length: usize,
        first: *mut usize,
        second: *mut usize,
        third: *mut usize,
    ) -> bool;

    fn delzhomo_check(
        listing: *const u8,
        listing_length: usize,
        first: *mut usize,
        second: *mut usize,
        third: *mut usize,
    ) -> bool;

    fn delzhomo_view(
        listing: *const u8,
        listing_length: usize,
        number: usize,
        first: *mut usize,
        second: *mut usize,
        third: *mut usize,
    ) -> bool;

    fn delzhomo_strip(
        unit: *const u8,
        unit_length: usize,
        out: *mut u8,
        out_length: usize,
        first: *mut usize,
        second: *mut usize,
        third: *mut usize,
    ) -> bool;

    fn delzhomo_store(
        listing: *const u8,
        listing_length: usize,
        out: *mut u8,
        out_length: usize,
        first: *mut usize,
        second: *mut usize,
        third: *mut usize,
    ) -> bool;

    fn delzhomo_restore(
        listing: *const u8,
        listing_length: usize,
        out: *mut u8,
        out_length: usize,
        first: *mut usize,
        second: *mut usize,
        third: *mut usize,
    ) -> bool;
}

pub(crate) fn measure(unit: &[u8]) -> Result<Totals, Refusal> {
    let [mut first, mut second, mut third] = [0; 3];
    // SAFETY: pointer and length are those of one slice, which is only read; the numbers are three locals of their own.
    let done = unsafe {
        delzhomo_measure(
            unit.as_ptr(),
            unit.len(),
            &mut first,
            &mut second,
            &mut third,
        )
    };
    totals(done, [first, second, third])
}

pub(crate) fn lower(unit: &[u8], out: &mut [u8], marks: &mut [u32]) -> Result<Totals, Refusal> {
    let [mut first, mut second, mut third] = [0; 3];
    // SAFETY: each pointer goes with the length of its own slice; the two that are written are borrowed mutably, so that none
    // overlaps another; all bits are valid for u8 and u32; the numbers are three locals of their own.
    let done = unsafe {
        delzhomo_lower(
            unit.as_ptr(),
            unit.len(),
            out.as_mut_ptr(),
            out.len(),
            marks.as_mut_ptr(),
            marks.len(),
            &mut first,
            &mut second,
            &mut third,
        )
    };
    totals(done, [first, second, third])
}

pub(crate) fn resolve(listing: &[u8], marks: &[u32], out: &mut [u8]) -> Result<usize, Refusal> {
    let [mut first, mut second, mut third] = [0; 3];
    // SAFETY: each pointer goes with the length of its own slice; only `out` is written, and it is borrowed mutably, so that it
    // overlaps none of the others; the numbers are three locals of their own.
    let done = unsafe {
        delzhomo_resolve(
            listing.as_ptr(),
            listing.len(),
            marks.as_ptr(),
            marks.len(),
            out.as_mut_ptr(),
            out.len(),
            &mut first,
            &mut second,
            &mut third,
        )
    };
    accepted(done, [first, second, third]).map(|[records, _, _]| records)
}

pub(crate) fn check(listing: &[u8]) -> Result<usize, Refusal> {
    let [mut first, mut second, mut third] = [0; 3];
    // SAFETY: pointer and length are those of one slice, which is only read; the numbers are three locals of their own.
    let done = unsafe {
        delzhomo_check(
            listing.as_ptr(),
            listing.len(),
            &mut first,
            &mut second,
            &mut third,
        )
    };
    accepted(done, [first, second, third]).map(|[records, _, _]| records)
}

pub(crate) fn view(listing: &[u8], number: usize) -> Result<Range<usize>, Refusal> {
    let [mut first, mut second, mut third] = [0; 3];
    // SAFETY: pointer and length are those of one slice, which is only read; the numbers are three locals of their own.
    let done = unsafe {
        delzhomo_view(
            listing.as_ptr(),
            listing.len(),
            number,
            &mut first,
            &mut second,
            &mut third,
        )
    };
    accepted(done, [first, second, third]).map(|[start, length, _]| start..start + length)
}

pub(crate) fn strip(unit: &[u8], out: &mut [u8]) -> Result<usize, Refusal> {
    written(delzhomo_strip, unit, out)
}

pub(crate) fn store(listing: &[u8], out: &mut [u8]) -> Result<usize, Refusal> {
    written(delzhomo_store, listing, out)
}

pub(crate) fn restore(listing: &[u8], out: &mut [u8]) -> Result<usize, Refusal> {
    written(delzhomo_restore, listing, out)
}

/// A function that reads one slice and writes another.
type Writer = unsafe extern "C" fn(
    *const u8,
    usize,
    *mut u8,
    usize,
    *mut usize,
    *mut usize,
    *mut usize,
) -> bool;

/// How many bytes or records it has written.
fn written(writer: Writer, read: &[u8], out: &mut [u8]) -> Result<usize, Refusal> {
    let [mut first, mut second, mut third] = [0; 3];
    // SAFETY: each pointer goes with the length of its own slice; only `out` is written, and it is borrowed mutably, so that it does
    // not overlap the other; the numbers are three locals of their own. `writer` is one of the library's three of this form.
    let done = unsafe {
        writer(
            read.as_ptr(),
            read.len(),
            out.as_mut_ptr(),
            out.len(),
            &mut first,
            &mut second,
            &mut third,
        )
    };
    accepted(done, [first, second, third]).map(|[count, _, _]| count)
}

fn totals(done: bool, numbers: [usize; 3]) -> Result<Totals, Refusal> {
    accepted(done, numbers).map(|[records, labels, size]| Totals {
        records,
        labels,
        size,
    })
}

/// The numbers of what was made, or the refusal that they are.
fn accepted(done: bool, numbers: [usize; 3]) -> Result<[usize; 3], Refusal> {
    let [number, place, extra] = numbers;
    if done {
        return Ok(numbers);
    }
    Err(Refusal {
        number,
        place,
        extra,
    })
}
