//! The library's C functions over slices, with their answers as they come.
//!
//! A refusal is its number × 2^32 + its place; `bindings/c/droverboot.h` has the
//! same functions for C. The rest of this crate gives their meaning.

mod c {
    extern "C" {
        pub fn drover_check(record: *const u8, record_length: usize) -> u64;
        pub fn drover_plan(
            record: *const u8,
            record_length: usize,
            lightest: *mut u16,
            lightest_length: usize,
            shortest: *mut u16,
            shortest_length: usize,
            between: *mut u16,
            between_length: usize,
            summary: *mut u32,
            summary_length: usize,
        ) -> u64;
        pub fn drover_rewrite(
            record: *const u8,
            record_length: usize,
            room: *mut u8,
            room_length: usize,
        ) -> u64;
        pub fn drover_to_second(
            record: *const u8,
            record_length: usize,
            room: *mut u8,
            room_length: usize,
        ) -> u64;
        pub fn drover_to_first(
            record: *const u8,
            record_length: usize,
            room: *mut u8,
            room_length: usize,
        ) -> u64;
        pub fn drover_margin(
            record: *const u8,
            record_length: usize,
            tree: u32,
            post: u32,
            out: *mut i64,
            out_length: usize,
        ) -> u64;
        pub fn drover_drawn(corner: u32, first_bits: u64, second_bits: u64) -> u64;
    }
}

/// How many numbers a summary has: posts, segments, source, p, q; length and
/// radius of the lightest, the shortest and the between tree; the count of laid
/// paths.
pub const SUMMARY: usize = 12;

/// In the answers of [`rewrite`], [`to_second`], [`to_first`] and [`drawn`] this
/// bit marks a refusal.
pub const REFUSED: u64 = 1 << 63;

/// Reads a record: 0, or the refusal.
pub fn check(record: &[u8]) -> u64 {
    // SAFETY: the pointer comes with the length of the slice it points to.
    unsafe { c::drover_check(record.as_ptr(), record.len()) }
}

/// Reads a record and builds its trees into three lists, each with at least one
/// entry for each post, and its numbers into the summary, as many as it has
/// places: 0, or the refusal, after which all lists are as they were. Entries
/// beyond the post count stay as they were.
pub fn plan(
    record: &[u8],
    lightest: &mut [u16],
    shortest: &mut [u16],
    between: &mut [u16],
    summary: &mut [u32],
) -> u64 {
    // SAFETY: every pointer comes with the length of the slice it points to, and
    // no two slices that may be written overlap.
    unsafe {
        c::drover_plan(
            record.as_ptr(),
            record.len(),
            lightest.as_mut_ptr(),
            lightest.len(),
            shortest.as_mut_ptr(),
            shortest.len(),
            between.as_mut_ptr(),
            between.len(),
            summary.as_mut_ptr(),
            summary.len(),
        )
    }
}

/// Reads a record and writes it into the room: the length written, or
/// [`REFUSED`] and the refusal, after which the room is as it was.
pub fn rewrite(record: &[u8], room: &mut [u8]) -> u64 {
    // SAFETY: every pointer comes with the length of the slice it points to.
    unsafe { c::drover_rewrite(record.as_ptr(), record.len(), room.as_mut_ptr(), room.len()) }
}

/// Reads a record of the first form and writes it in the second into the room:
/// the length written, or [`REFUSED`] and the refusal, after which the room is as
/// it was.
pub fn to_second(record: &[u8], room: &mut [u8]) -> u64 {
    // SAFETY: every pointer comes with the length of the slice it points to.
    unsafe { c::drover_to_second(record.as_ptr(), record.len(), room.as_mut_ptr(), room.len()) }
}

/// Reads a record of the second form and writes it in the first into the room:
/// the length written, or [`REFUSED`] and the refusal, after which the room is as
/// it was.
pub fn to_first(record: &[u8], room: &mut [u8]) -> u64 {
    // SAFETY: every pointer comes with the length of the slice it points to.
    unsafe { c::drover_to_first(record.as_ptr(), record.len(), room.as_mut_ptr(), room.len()) }
}

/// Reads a record and puts the margin of a post in a tree (0 lightest, 1
/// shortest, 2 and above between) into the first entry of `out`, if it has one:
/// 0, or the refusal, after which `out` is as it was.
pub fn margin(record: &[u8], tree: u32, post: u32, out: &mut [i64]) -> u64 {
    // SAFETY: every pointer comes with the length of the slice it points to.
    unsafe {
        c::drover_margin(
            record.as_ptr(),
            record.len(),
            tree,
            post,
            out.as_mut_ptr(),
            out.len(),
        )
    }
}

/// Turns a drawn run into sixteenths of a millimetre, rounded up: the length, or
/// [`REFUSED`] and the refusal. The run is straight if `corner` is 0, and then
/// has no second length; lengths are given by the bits of an f64.
pub fn drawn(corner: u32, first_bits: u64, second_bits: u64) -> u64 {
    // SAFETY: the function takes numbers only.
    unsafe { c::drover_drawn(corner, first_bits, second_bits) }
}
