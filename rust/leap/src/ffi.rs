//! The calls of `leap.h` as they are, with nothing added. Each returns 0 or the
//! number of a refusal and sets every output; those for many questions return
//! how many they answered or refused. All unsafe code is here.
//!
//! A Rust reference is never null, is aligned, and a `&mut` overlaps no other
//! reference, which is all that the header asks of its callers.

/// A schedule as `leap.h` lays it out: month and sign word of each of the 256
/// places, the count, the expiry MJD.
pub type Words = [u32; 514];

/// A part of a caller's bytes as `leap.h` lays it out.
#[repr(C)]
struct Part {
    start: *const u8,
    length: usize,
}

extern "C" {
    fn leap_read_text(bytes: *const u8, length: usize, out: *mut Words, place: *mut u64) -> u8;
    fn leap_read_nybbles(bytes: *const u8, length: usize, out: *mut Words, place: *mut u64) -> u8;
    fn leap_write_text(s: *const Words, out: *mut u8, room: usize, written: *mut u64) -> u8;
    fn leap_write_nybbles(s: *const Words, out: *mut u8, room: usize, written: *mut u64) -> u8;
    fn leap_compare_text(
        first: *const u8,
        first_length: usize,
        second: *const u8,
        second_length: usize,
        out: *mut u8,
        room: usize,
        written: *mut u64,
    ) -> u8;
    fn leap_longer_text(
        first: *const u8,
        first_length: usize,
        second: *const u8,
        second_length: usize,
        part: *mut Part,
    ) -> u8;
    fn leap_extends(longer: *const Words, shorter: *const Words, yes: *mut u8) -> u8;
    fn leap_dtai(s: *const Words, mjd: u64, dtai: *mut i32) -> u8;
    fn leap_utc_to_tai(s: *const Words, mjd: u64, micros: u64, tai: *mut u64) -> u8;
    fn leap_tai_to_utc(s: *const Words, tai: u64, mjd: *mut u64, micros: *mut u64) -> u8;
    fn leap_utc_to_uts(s: *const Words, mjd: u64, micros: u64, nanos: *mut u64) -> u8;
    fn leap_uts_to_utc(s: *const Words, mjd: u64, nanos: u64, micros: *mut u64) -> u8;
    fn leap_dtai_many(
        s: *const Words,
        mjd: *const u64,
        mjd_length: usize,
        numbers: *mut u8,
        numbers_length: usize,
        dtai: *mut i32,
        dtai_length: usize,
    ) -> u64;
    fn leap_utc_to_tai_many(
        s: *const Words,
        mjd: *const u64,
        mjd_length: usize,
        micros: *const u64,
        micros_length: usize,
        numbers: *mut u8,
        numbers_length: usize,
        tai: *mut u64,
        tai_length: usize,
    ) -> u64;
    fn leap_tai_to_utc_many(
        s: *const Words,
        tai: *const u64,
        tai_length: usize,
        numbers: *mut u8,
        numbers_length: usize,
        mjd: *mut u64,
        mjd_length: usize,
        micros: *mut u64,
        micros_length: usize,
    ) -> u64;
    fn leap_utc_to_uts_many(
        s: *const Words,
        mjd: *const u64,
        mjd_length: usize,
        micros: *const u64,
        micros_length: usize,
        numbers: *mut u8,
        numbers_length: usize,
        nanos: *mut u64,
        nanos_length: usize,
    ) -> u64;
    fn leap_uts_to_utc_many(
        s: *const Words,
        mjd: *const u64,
        mjd_length: usize,
        nanos: *const u64,
        nanos_length: usize,
        numbers: *mut u8,
        numbers_length: usize,
        micros: *mut u64,
        micros_length: usize,
    ) -> u64;
    fn leap_replay(
        current: *mut Words,
        stored: *mut Words,
        trace: *const u8,
        length: usize,
        out: *mut u8,
        room: usize,
        used: *mut u64,
        written: *mut u64,
    ) -> u8;
    fn leap_replay_end(
        left: *const u8,
        length: usize,
        out: *mut u8,
        room: usize,
        written: *mut u64,
    ) -> u8;
}

/// Reads a text list. `place` is the byte of a refusal.
pub fn read_text(bytes: &[u8], out: &mut Words, place: &mut u64) -> u8 {
    // SAFETY: see above; the length is the slice's own.
    unsafe { leap_read_text(bytes.as_ptr(), bytes.len(), out, place) }
}

/// Reads a nybble list. `place` is the nybble of a refusal.
pub fn read_nybbles(bytes: &[u8], out: &mut Words, place: &mut u64) -> u8 {
    // SAFETY: see above; the length is the slice's own.
    unsafe { leap_read_nybbles(bytes.as_ptr(), bytes.len(), out, place) }
}

/// Writes a text list to the start of `out`; `written` is its length.
pub fn write_text(s: &Words, out: &mut [u8], written: &mut u64) -> u8 {
    // SAFETY: see above; the room is the slice's own length.
    unsafe { leap_write_text(s, out.as_mut_ptr(), out.len(), written) }
}

/// Writes a nybble list to the start of `out`; `written` is its length.
pub fn write_nybbles(s: &Words, out: &mut [u8], written: &mut u64) -> u8 {
    // SAFETY: see above; the room is the slice's own length.
    unsafe { leap_write_nybbles(s, out.as_mut_ptr(), out.len(), written) }
}

/// Writes the comparison of two text lists to the start of `out`; `written` is
/// its length.
pub fn compare_text(first: &[u8], second: &[u8], out: &mut [u8], written: &mut u64) -> u8 {
    // SAFETY: see above; the lengths and the room are the slices' own.
    unsafe {
        leap_compare_text(
            first.as_ptr(),
            first.len(),
            second.as_ptr(),
            second.len(),
            out.as_mut_ptr(),
            out.len(),
            written,
        )
    }
}

/// Sets `part` to the longer of two text lists that do not contradict, or to the
/// empty start of the first.
pub fn longer_text<'a>(first: &'a [u8], second: &'a [u8], part: &mut &'a [u8]) -> u8 {
    let mut handed = Part {
        start: part.as_ptr(),
        length: part.len(),
    };
    // SAFETY: see above; the lengths are the slices' own, and so is the part
    // held before the call.
    let number = unsafe {
        leap_longer_text(
            first.as_ptr(),
            first.len(),
            second.as_ptr(),
            second.len(),
            &mut handed,
        )
    };
    // SAFETY: the part is the first list, the second, or the first's empty start.
    *part = unsafe { std::slice::from_raw_parts(handed.start, handed.length) };
    number
}

/// Whether one schedule extends another: `yes` is 1 if it does, else 0.
pub fn extends(longer: &Words, shorter: &Words, yes: &mut u8) -> u8 {
    // SAFETY: see above.
    unsafe { leap_extends(longer, shorter, yes) }
}

/// TAI minus UTC on a day, in seconds.
pub fn dtai(s: &Words, mjd: u64, dtai: &mut i32) -> u8 {
    // SAFETY: see above.
    unsafe { leap_dtai(s, mjd, dtai) }
}

/// The TAI of a UTC instant.
pub fn utc_to_tai(s: &Words, mjd: u64, micros: u64, tai: &mut u64) -> u8 {
    // SAFETY: see above.
    unsafe { leap_utc_to_tai(s, mjd, micros, tai) }
}

/// The UTC instant with a TAI.
pub fn tai_to_utc(s: &Words, tai: u64, mjd: &mut u64, micros: &mut u64) -> u8 {
    // SAFETY: see above.
    unsafe { leap_tai_to_utc(s, tai, mjd, micros) }
}

/// The UTS of a UTC instant.
pub fn utc_to_uts(s: &Words, mjd: u64, micros: u64, nanos: &mut u64) -> u8 {
    // SAFETY: see above.
    unsafe { leap_utc_to_uts(s, mjd, micros, nanos) }
}

/// The greatest UTC of a day whose UTS is not above the one given.
pub fn uts_to_utc(s: &Words, mjd: u64, nanos: u64, micros: &mut u64) -> u8 {
    // SAFETY: see above.
    unsafe { leap_uts_to_utc(s, mjd, nanos, micros) }
}

/// [`dtai`] of each day: its number and its value, as far as the shortest slice
/// goes. Gives that length; elements beyond it stay.
pub fn dtai_many(s: &Words, mjd: &[u64], numbers: &mut [u8], dtai: &mut [i32]) -> u64 {
    // SAFETY: see above; each length is the slice's own.
    unsafe {
        leap_dtai_many(
            s,
            mjd.as_ptr(),
            mjd.len(),
            numbers.as_mut_ptr(),
            numbers.len(),
            dtai.as_mut_ptr(),
            dtai.len(),
        )
    }
}

/// [`utc_to_tai`] of each instant, with lengths as in [`dtai_many`].
pub fn utc_to_tai_many(
    s: &Words,
    mjd: &[u64],
    micros: &[u64],
    numbers: &mut [u8],
    tai: &mut [u64],
) -> u64 {
    // SAFETY: see above; each length is the slice's own.
    unsafe {
        leap_utc_to_tai_many(
            s,
            mjd.as_ptr(),
            mjd.len(),
            micros.as_ptr(),
            micros.len(),
            numbers.as_mut_ptr(),
            numbers.len(),
            tai.as_mut_ptr(),
            tai.len(),
        )
    }
}

/// [`tai_to_utc`] of each TAI, with lengths as in [`dtai_many`].
pub fn tai_to_utc_many(
    s: &Words,
    tai: &[u64],
    numbers: &mut [u8],
    mjd: &mut [u64],
    micros: &mut [u64],
) -> u64 {
    // SAFETY: see above; each length is the slice's own.
    unsafe {
        leap_tai_to_utc_many(
            s,
            tai.as_ptr(),
            tai.len(),
            numbers.as_mut_ptr(),
            numbers.len(),
            mjd.as_mut_ptr(),
            mjd.len(),
            micros.as_mut_ptr(),
            micros.len(),
        )
    }
}

/// [`utc_to_uts`] of each instant, with lengths as in [`dtai_many`].
pub fn utc_to_uts_many(
    s: &Words,
    mjd: &[u64],
    micros: &[u64],
    numbers: &mut [u8],
    nanos: &mut [u64],
) -> u64 {
    // SAFETY: see above; each length is the slice's own.
    unsafe {
        leap_utc_to_uts_many(
            s,
            mjd.as_ptr(),
            mjd.len(),
            micros.as_ptr(),
            micros.len(),
            numbers.as_mut_ptr(),
            numbers.len(),
            nanos.as_mut_ptr(),
            nanos.len(),
        )
    }
}

/// [`uts_to_utc`] of each UTS, with lengths as in [`dtai_many`].
pub fn uts_to_utc_many(
    s: &Words,
    mjd: &[u64],
    nanos: &[u64],
    numbers: &mut [u8],
    micros: &mut [u64],
) -> u64 {
    // SAFETY: see above; each length is the slice's own.
    unsafe {
        leap_uts_to_utc_many(
            s,
            mjd.as_ptr(),
            mjd.len(),
            nanos.as_ptr(),
            nanos.len(),
            numbers.as_mut_ptr(),
            numbers.len(),
            micros.as_mut_ptr(),
            micros.len(),
        )
    }
}

/// Replays the complete lines of a piece of a trace, as long as a line has room;
/// `used` is how many bytes of the piece they are, `written` how many of `out`
/// they printed.
pub fn replay(
    current: &mut Words,
    stored: &mut Words,
    trace: &[u8],
    out: &mut [u8],
    used: &mut u64,
    written: &mut u64,
) -> u8 {
    // SAFETY: see above; the length and the room are the slices' own.
    unsafe {
        leap_replay(
            current,
            stored,
            trace.as_ptr(),
            trace.len(),
            out.as_mut_ptr(),
            out.len(),
            used,
            written,
        )
    }
}

/// Writes what the end of a trace prints, where `left` stands after its last LF;
/// `written` is its length.
pub fn replay_end(left: &[u8], out: &mut [u8], written: &mut u64) -> u8 {
    // SAFETY: see above; the length and the room are the slices' own.
    unsafe {
        leap_replay_end(
            left.as_ptr(),
            left.len(),
            out.as_mut_ptr(),
            out.len(),
            written,
        )
    }
}
