//! The C functions of `include/drnkavec.h`, each behind a safe one.

#[link(name = "face", kind = "static")]
extern "C" {
    fn vfr_quick_check(src: *const u8, src_len: usize) -> u64;
    fn vfr_read(src: *const u8, src_len: usize, table: *mut u64, table_len: usize, answer: *mut u64, answer_len: usize);
    fn vfr_resolve(
        src: *const u8,
        src_len: usize,
        table: *mut u64,
        table_len: usize,
        out: *mut u8,
        out_len: usize,
        answer: *mut u64,
        answer_len: usize,
    );
    fn vfr_show(
        src: *const u8,
        src_len: usize,
        answers: *const u64,
        answers_len: usize,
        table: *mut u64,
        table_len: usize,
        out: *mut u8,
        out_len: usize,
        answer: *mut u64,
        answer_len: usize,
    );
    fn vfr_read_family(
        buffer: *const u8,
        buffer_len: usize,
        ends: *const u64,
        ends_len: usize,
        table: *mut u64,
        table_len: usize,
        answers: *mut u64,
        answers_len: usize,
        answer: *mut u64,
        answer_len: usize,
    );
    fn vfr_token(
        src: *const u8,
        src_len: usize,
        at: usize,
        line: usize,
        column: usize,
        token: *mut u64,
        token_len: usize,
    );
}

/// Stages 1 to 5, with 16 before 5: the refusal's number times 2^32 plus its place, or 0.
pub fn quick_check(source: &[u8]) -> u64 {
    // The pointer and length are those of one slice; the function reads it and keeps nothing.
    unsafe { vfr_quick_check(source.as_ptr(), source.len()) }
}

/// Reads a source into a table; every number of the answer is written, 0 past the layout.
pub fn read_into(source: &[u8], table: &mut [u64], answer: &mut [u64]) {
    // Each pointer and length are those of one slice, and the borrows keep the slices apart.
    unsafe {
        vfr_read(source.as_ptr(), source.len(), table.as_mut_ptr(), table.len(), answer.as_mut_ptr(), answer.len())
    }
}

/// Reads a source into a table and writes its resolved text; every number of the answer is written, 0 past the layout.
pub fn resolve_into(source: &[u8], table: &mut [u64], out: &mut [u8], answer: &mut [u64]) {
    // As above.
    unsafe {
        vfr_resolve(
            source.as_ptr(),
            source.len(),
            table.as_mut_ptr(),
            table.len(),
            out.as_mut_ptr(),
            out.len(),
            answer.as_mut_ptr(),
            answer.len(),
        )
    }
}

/// Reads a source into a table and writes a byte for each row, by the answers to its questions (two numbers each, a
/// question's number and its value); every number of the answer is written, 0 past the layout.
pub fn show_into(source: &[u8], answers: &[u64], table: &mut [u64], out: &mut [u8], answer: &mut [u64]) {
    // As above.
    unsafe {
        vfr_show(
            source.as_ptr(),
            source.len(),
            answers.as_ptr(),
            answers.len(),
            table.as_mut_ptr(),
            table.len(),
            out.as_mut_ptr(),
            out.len(),
            answer.as_mut_ptr(),
            answer.len(),
        )
    }
}

/// Reads the sources of a buffer, which these ends part, into one table, and writes an answer of six numbers for each;
/// every number of the call's own answer is written, 0 past the layout.
pub fn read_family_into(buffer: &[u8], ends: &[u64], table: &mut [u64], answers: &mut [u64], answer: &mut [u64]) {
    // As above.
    unsafe {
        vfr_read_family(
            buffer.as_ptr(),
            buffer.len(),
            ends.as_ptr(),
            ends.len(),
            table.as_mut_ptr(),
            table.len(),
            answers.as_mut_ptr(),
            answers.len(),
            answer.as_mut_ptr(),
            answer.len(),
        )
    }
}

/// The token that stands first from a place on, which has this line and column; every number lent is written, 0 past the
/// layout.
pub fn token_into(source: &[u8], at: usize, line: usize, column: usize, token: &mut [u64]) {
    // As above; the place may be any number.
    unsafe { vfr_token(source.as_ptr(), source.len(), at, line, column, token.as_mut_ptr(), token.len()) }
}
