//! The declarations of `include/boc.h`, and each call behind a safe function of the same shape.
//!
//! The library reads and writes only within the lengths that it is given and keeps no pointer. Slices are
//! valid for their lengths, and Rust's borrows keep what is written apart from all else, so the calls are
//! safe for all arguments.

#![allow(unsafe_code)]

mod c {
    extern "C" {
        pub fn boc_read(
            pdu: *const u8,
            pdu_len: usize,
            bits: usize,
            record: *mut u32,
            record_words: usize,
            place: *mut usize,
        ) -> u32;
        pub fn boc_write(
            record: *const u32,
            record_words: usize,
            out: *mut u8,
            out_len: usize,
            bits: *mut usize,
        ) -> u32;
        pub fn boc_empty(home: u32, out: *mut u8, out_len: usize, length: *mut usize) -> u32;
        pub fn boc_capture(
            archive: *const u8,
            archive_len: usize,
            pdu: *const u8,
            pdu_len: usize,
            bits: usize,
            day: u32,
            out: *mut u8,
            out_len: usize,
            length: *mut usize,
            entry: *mut usize,
            place: *mut usize,
        ) -> u32;
        pub fn boc_entry(
            archive: *const u8,
            archive_len: usize,
            index: usize,
            key: *mut u32,
            key_words: usize,
            bits: *mut usize,
            day: *mut u32,
            entry: *mut usize,
            place: *mut usize,
        ) -> u32;
        pub fn boc_restore(
            archive: *const u8,
            archive_len: usize,
            network: u32,
            ssi: u32,
            part: u32,
            out: *mut u8,
            out_len: usize,
            bits: *mut usize,
            day: *mut u32,
            entry: *mut usize,
            place: *mut usize,
        ) -> u32;
        pub fn boc_reload(
            archive: *const u8,
            archive_len: usize,
            network: u32,
            ssi: u32,
            part: u32,
            definition: u32,
            delivery: u32,
            acknowledgement: u32,
            out: *mut u8,
            out_len: usize,
            bits: *mut usize,
            entry: *mut usize,
            place: *mut usize,
        ) -> u32;
        pub fn boc_reload_external(
            archive: *const u8,
            archive_len: usize,
            network: u32,
            ssi: u32,
            definition: u32,
            delivery: u32,
            acknowledgement: u32,
            out: *mut u8,
            out_len: usize,
            bits: *mut usize,
            entry: *mut usize,
            place: *mut usize,
        ) -> u32;
        pub fn boc_decide(
            archive: *const u8,
            archive_len: usize,
            request: *const u32,
            request_words: usize,
            decision: *mut u32,
            entry: *mut usize,
            place: *mut usize,
        ) -> u32;
        pub fn boc_decide_in_place(
            archive: *const u8,
            archive_len: usize,
            request: *const u32,
            request_words: usize,
            decision: *mut u32,
            entry: *mut usize,
            place: *mut usize,
        ) -> u32;
        pub fn boc_contents(
            archive: *const u8,
            archive_len: usize,
            out: *mut u8,
            out_len: usize,
            length: *mut usize,
            entry: *mut usize,
            place: *mut usize,
        ) -> u32;
        pub fn boc_terminal_reset(table: *mut u8, table_len: usize) -> u32;
        pub fn boc_terminal_line(
            line: *const u8,
            line_len: usize,
            table: *mut u8,
            table_len: usize,
            out: *mut u8,
            out_len: usize,
            length: *mut usize,
        ) -> u32;
    }
}

/// `BOC_NOWHERE`.
pub const NOWHERE: usize = usize::MAX;

/// What is behind the pointers `entry` and `place`: a refused call writes both, [`NOWHERE`] where its
/// refusal has none, and an accepted one leaves them.
#[derive(Clone, Copy, Debug, PartialEq, Eq)]
pub struct Spot {
    /// The index of an entry of the archive.
    pub entry: usize,
    /// The place of a bit in the PDU, or in the entry's body.
    pub place: usize,
}

impl Spot {
    /// No entry and no place.
    pub const NONE: Spot = Spot { entry: NOWHERE, place: NOWHERE };
}

/// `boc_read`.
pub fn read(pdu: &[u8], bits: usize, record: &mut [u32], place: &mut usize) -> u32 {
    // SAFETY: slices and a reference, as above.
    unsafe { c::boc_read(pdu.as_ptr(), pdu.len(), bits, record.as_mut_ptr(), record.len(), place) }
}

/// `boc_write`.
pub fn write(record: &[u32], out: &mut [u8], bits: &mut usize) -> u32 {
    // SAFETY: slices and a reference, as above.
    unsafe { c::boc_write(record.as_ptr(), record.len(), out.as_mut_ptr(), out.len(), bits) }
}

/// `boc_empty`.
pub fn empty(home: u32, out: &mut [u8], length: &mut usize) -> u32 {
    // SAFETY: slices and a reference, as above.
    unsafe { c::boc_empty(home, out.as_mut_ptr(), out.len(), length) }
}

/// `boc_capture`.
pub fn capture(
    archive: &[u8],
    pdu: &[u8],
    bits: usize,
    day: u32,
    out: &mut [u8],
    length: &mut usize,
    Spot { entry, place }: &mut Spot,
) -> u32 {
    let (held, held_len) = (archive.as_ptr(), archive.len());
    let (out, out_len) = (out.as_mut_ptr(), out.len());
    // SAFETY: slices and references, as above.
    unsafe {
        c::boc_capture(held, held_len, pdu.as_ptr(), pdu.len(), bits, day, out, out_len, length, entry, place)
    }
}

/// `boc_entry`.
pub fn entry(
    archive: &[u8],
    index: usize,
    key: &mut [u32],
    bits: &mut usize,
    day: &mut u32,
    Spot { entry, place }: &mut Spot,
) -> u32 {
    let (held, held_len) = (archive.as_ptr(), archive.len());
    let (key, key_words) = (key.as_mut_ptr(), key.len());
    // SAFETY: slices and references, as above.
    unsafe { c::boc_entry(held, held_len, index, key, key_words, bits, day, entry, place) }
}

/// `boc_restore`.
#[allow(clippy::too_many_arguments)]
pub fn restore(
    archive: &[u8],
    network: u32,
    ssi: u32,
    part: u32,
    out: &mut [u8],
    bits: &mut usize,
    day: &mut u32,
    Spot { entry, place }: &mut Spot,
) -> u32 {
    let (held, held_len) = (archive.as_ptr(), archive.len());
    let (out, out_len) = (out.as_mut_ptr(), out.len());
    // SAFETY: slices and references, as above.
    unsafe { c::boc_restore(held, held_len, network, ssi, part, out, out_len, bits, day, entry, place) }
}

/// `boc_reload`.
#[allow(clippy::too_many_arguments)]
pub fn reload(
    archive: &[u8],
    network: u32,
    ssi: u32,
    part: u32,
    definition: u32,
    delivery: u32,
    acknowledgement: u32,
    out: &mut [u8],
    bits: &mut usize,
    Spot { entry, place }: &mut Spot,
) -> u32 {
    let (held, held_len) = (archive.as_ptr(), archive.len());
    let (out, out_len) = (out.as_mut_ptr(), out.len());
    // SAFETY: slices and references, as above.
    unsafe {
        c::boc_reload(
            held,
            held_len,
            network,
            ssi,
            part,
            definition,
            delivery,
            acknowledgement,
            out,
            out_len,
            bits,
            entry,
            place,
        )
    }
}

/// `boc_reload_external`.
#[allow(clippy::too_many_arguments)]
pub fn reload_external(
    archive: &[u8],
    network: u32,
    ssi: u32,
    definition: u32,
    delivery: u32,
    acknowledgement: u32,
    out: &mut [u8],
    bits: &mut usize,
    Spot { entry, place }: &mut Spot,
) -> u32 {
    let (held, held_len) = (archive.as_ptr(), archive.len());
    let (out, out_len) = (out.as_mut_ptr(), out.len());
    // SAFETY: slices and references, as above.
    unsafe {
        c::boc_reload_external(
            held,
            held_len,
            network,
            ssi,
            definition,
            delivery,
            acknowledgement,
            out,
            out_len,
            bits,
            entry,
            place,
        )
    }
}

/// `boc_decide`.
pub fn decide(archive: &[u8], request: &[u32], decision: &mut u32, Spot { entry, place }: &mut Spot) -> u32 {
    let (held, held_len) = (archive.as_ptr(), archive.len());
    // SAFETY: slices and references, as above.
    unsafe { c::boc_decide(held, held_len, request.as_ptr(), request.len(), decision, entry, place) }
}

/// `boc_decide_in_place`.
pub fn decide_in_place(
    archive: &[u8],
    request: &[u32],
    decision: &mut u32,
    Spot { entry, place }: &mut Spot,
) -> u32 {
    let (held, held_len) = (archive.as_ptr(), archive.len());
    // SAFETY: slices and references, as above.
    unsafe { c::boc_decide_in_place(held, held_len, request.as_ptr(), request.len(), decision, entry, place) }
}

/// `boc_contents`.
pub fn contents(archive: &[u8], out: &mut [u8], length: &mut usize, Spot { entry, place }: &mut Spot) -> u32 {
    let (held, held_len) = (archive.as_ptr(), archive.len());
    // SAFETY: slices and references, as above.
    unsafe { c::boc_contents(held, held_len, out.as_mut_ptr(), out.len(), length, entry, place) }
}

/// `boc_terminal_reset`.
pub fn terminal_reset(table: &mut [u8]) -> u32 {
    // SAFETY: a slice, as above.
    unsafe { c::boc_terminal_reset(table.as_mut_ptr(), table.len()) }
}

/// `boc_terminal_line`.
pub fn terminal_line(line: &[u8], table: &mut [u8], out: &mut [u8], length: &mut usize) -> u32 {
    let (rows, rows_len) = (table.as_mut_ptr(), table.len());
    // SAFETY: slices and a reference, as above.
    unsafe {
        c::boc_terminal_line(line.as_ptr(), line.len(), rows, rows_len, out.as_mut_ptr(), out.len(), length)
    }
}
