//! The calls of `include/grafcet.h` on slices of any length: the boundary
//! checks every length itself, and refuses a wrong one without touching
//! anything.

/// The call was made, and its answer stands in the slices.
pub const MADE: u32 = 0;
/// A slice has the wrong length; nothing was touched.
pub const REFUSED: u32 = 1;
/// Words of a state: situation, inputs, latched, thirty ages.
pub const STATE_WORDS: usize = 33;
/// Words of an answer: number, count, outputs.
pub const ANSWER_WORDS: usize = 3;
/// Words of a check (number, line), and of a lookup and a name (start,
/// length).
pub const PAIR_WORDS: usize = 2;
/// Words of an import: number, line, length.
pub const IMPORT_WORDS: usize = 3;
/// Bytes that an import wants for its result.
pub const IMPORT_ROOM: usize = 16_384;

/// As `include/grafcet.h` declares them: each slice is a pointer and a length.
mod declared {
    extern "C" {
        pub fn grafcet_check(text: *const u8, bytes: usize, out: *mut u32, words: usize) -> u32;
        pub fn grafcet_lookup(
            text: *const u8,
            bytes: usize,
            k: u32,
            out: *mut u32,
            words: usize,
        ) -> u32;
        pub fn grafcet_start(
            text: *const u8,
            bytes: usize,
            inputs: u32,
            state: *mut u32,
            state_words: usize,
            out: *mut u32,
            out_words: usize,
            trace: *mut u32,
            trace_words: usize,
        ) -> u32;
        pub fn grafcet_event(
            text: *const u8,
            bytes: usize,
            elapsed: u32,
            inputs: u32,
            state: *mut u32,
            state_words: usize,
            out: *mut u32,
            out_words: usize,
            trace: *mut u32,
            trace_words: usize,
        ) -> u32;
        pub fn grafcet_import(
            text: *const u8,
            bytes: usize,
            room: *mut u8,
            room_bytes: usize,
            out: *mut u32,
            words: usize,
        ) -> u32;
        pub fn grafcet_name(
            text: *const u8,
            bytes: usize,
            kind: u32,
            k: u32,
            out: *mut u32,
            words: usize,
        ) -> u32;
    }
}

/// Number and line, in two words.
pub fn check(text: &[u8], out: &mut [u32]) -> u32 {
    // SAFETY: both pairs come from slices that are borrowed for the call, so they
    // are aligned, readable or writable in full length, and do not overlap. The
    // call is proved for every content and every length and keeps no pointer.
    unsafe { declared::grafcet_check(text.as_ptr(), text.len(), out.as_mut_ptr(), out.len()) }
}

/// Start and length of the part that is the k-th move's condition, in two
/// words.
pub fn lookup(text: &[u8], k: u32, out: &mut [u32]) -> u32 {
    // SAFETY: as in `check`.
    unsafe { declared::grafcet_lookup(text.as_ptr(), text.len(), k, out.as_mut_ptr(), out.len()) }
}

/// A chart's start: state in 33 words; number, count and outputs in three.
pub fn start(
    text: &[u8],
    inputs: u32,
    state: &mut [u32],
    out: &mut [u32],
    trace: &mut [u32],
) -> u32 {
    // SAFETY: as in `check`.
    unsafe {
        declared::grafcet_start(
            text.as_ptr(),
            text.len(),
            inputs,
            state.as_mut_ptr(),
            state.len(),
            out.as_mut_ptr(),
            out.len(),
            trace.as_mut_ptr(),
            trace.len(),
        )
    }
}

/// One event, from the state in the 33 words, which then hold the state of the
/// answer.
pub fn event(
    text: &[u8],
    elapsed: u32,
    inputs: u32,
    state: &mut [u32],
    out: &mut [u32],
    trace: &mut [u32],
) -> u32 {
    // SAFETY: as in `check`.
    unsafe {
        declared::grafcet_event(
            text.as_ptr(),
            text.len(),
            elapsed,
            inputs,
            state.as_mut_ptr(),
            state.len(),
            out.as_mut_ptr(),
            out.len(),
            trace.as_mut_ptr(),
            trace.len(),
        )
    }
}

/// SFC text as chart text in the room: number, line and length, in three
/// words.
pub fn import(text: &[u8], room: &mut [u8], out: &mut [u32]) -> u32 {
    // SAFETY: as in `check`.
    unsafe {
        declared::grafcet_import(
            text.as_ptr(),
            text.len(),
            room.as_mut_ptr(),
            room.len(),
            out.as_mut_ptr(),
            out.len(),
        )
    }
}

/// Start and length of the part that is the name of item k of a kind, in two
/// words.
pub fn name(text: &[u8], kind: u32, k: u32, out: &mut [u32]) -> u32 {
    // SAFETY: as in `check`.
    unsafe {
        declared::grafcet_name(text.as_ptr(), text.len(), kind, k, out.as_mut_ptr(), out.len())
    }
}
