//! The engine's calls with their bare answers: the refusal's number times 2^32 (0 if not refused), plus the value,
//! which is 0 when refused. Only [`cut`] answers a length, which is 0 when refused, and [`sheet_lines`] a
//! struct.
//!
//! They are as safe as the wrapped calls, and take the same bytes: sides as 1 (left), 2 (right) or any other byte
//! (unnamed, and then the left half is known), parts as in the casebook's records.
//!
//! ```
//! // Over 15 handshake pairs: refused 4.
//! assert_eq!(yenuslap::bare::count_splittings(16, &[1], &[1], &[0, 0]), 4 << 32);
//! // A log of no steps has one splitting.
//! assert_eq!(yenuslap::bare::count_splittings(15, &[1], &[1], &[0, 0]), 1);
//! ```

/// The answer of [`sheet_lines`], laid out as the engine's `struct yenuslap_lines`.
#[repr(C)]
#[derive(Clone, Copy, PartialEq, Eq, Debug)]
pub struct LinesAnswer {
    /// The refusal's number, 0 if not refused.
    pub refusal: u64,
    /// How many lines were written, 0 when refused.
    pub lines: u64,
    /// How many bytes they are, 0 when refused.
    pub bytes: u64,
}

extern "C" {
    fn yenuslap_casebook_read(bytes: *const u8, bytes_len: usize) -> u64;
    fn yenuslap_casebook_part(bytes: *const u8, bytes_len: usize, kind: u8) -> u64;
    fn yenuslap_casebook_write(
        k: u8,
        left: *const u8,
        left_len: usize,
        right: *const u8,
        right_len: usize,
        run: *const u8,
        run_len: usize,
        question: *const u8,
        question_len: usize,
        out: *mut u8,
        out_len: usize,
    ) -> u64;
    fn yenuslap_joint_verdict(
        k: u8,
        left: *const u8,
        left_len: usize,
        right: *const u8,
        right_len: usize,
        run: *const u8,
        run_len: usize,
        formula: *const u8,
        formula_len: usize,
        point: usize,
    ) -> u64;
    fn yenuslap_half_verdict(
        k: u8,
        table: *const u8,
        table_len: usize,
        half: *const u8,
        half_len: usize,
        formula: *const u8,
        formula_len: usize,
        point: usize,
    ) -> u64;
    fn yenuslap_count_splittings(
        k: u8,
        left: *const u8,
        left_len: usize,
        right: *const u8,
        right_len: usize,
        run: *const u8,
        run_len: usize,
    ) -> u64;
    fn yenuslap_split(
        k: u8,
        left: *const u8,
        left_len: usize,
        right: *const u8,
        right_len: usize,
        run: *const u8,
        run_len: usize,
        number: usize,
        left_out: *mut u8,
        left_out_len: usize,
        right_out: *mut u8,
        right_out_len: usize,
    ) -> u64;
    fn yenuslap_join(
        k: u8,
        left: *const u8,
        left_len: usize,
        right: *const u8,
        right_len: usize,
        left_half: *const u8,
        left_half_len: usize,
        right_half: *const u8,
        right_half_len: usize,
        out: *mut u8,
        out_len: usize,
    ) -> u64;
    fn yenuslap_cut(
        left_half: *const u8,
        left_half_len: usize,
        right_half: *const u8,
        right_half_len: usize,
        side: u8,
        point: usize,
    ) -> usize;
    fn yenuslap_quotient(
        k: u8,
        left: *const u8,
        left_len: usize,
        right: *const u8,
        right_len: usize,
        left_half: *const u8,
        left_half_len: usize,
        right_half: *const u8,
        right_half_len: usize,
        question: *const u8,
        question_len: usize,
        side: u8,
        point: usize,
        out: *mut u8,
        out_len: usize,
    ) -> u64;
    fn yenuslap_quotient_of_splitting(
        k: u8,
        left: *const u8,
        left_len: usize,
        right: *const u8,
        right_len: usize,
        run: *const u8,
        run_len: usize,
        question: *const u8,
        question_len: usize,
        number: usize,
        side: u8,
        point: usize,
        out: *mut u8,
        out_len: usize,
    ) -> u64;
    fn yenuslap_line_office(
        k: u8,
        left: *const u8,
        left_len: usize,
        right: *const u8,
        right_len: usize,
        left_half: *const u8,
        left_half_len: usize,
        right_half: *const u8,
        right_half_len: usize,
        question: *const u8,
        question_len: usize,
        side: u8,
        point: usize,
    ) -> u64;
    fn yenuslap_sheet_lines(
        casebook: *const u8,
        casebook_len: usize,
        first: usize,
        most: usize,
        out: *mut u8,
        out_len: usize,
    ) -> LinesAnswer;
    fn yenuslap_aldebaran_read(
        text: *const u8,
        text_len: usize,
        table_out: *mut u8,
        table_out_len: usize,
    ) -> u64;
    fn yenuslap_aldebaran_write(
        table: *const u8,
        table_len: usize,
        first: usize,
        out: *mut u8,
        out_len: usize,
    ) -> u64;
}

/// Judges a casebook: value 0, or refusals 1 to 11.
pub fn casebook_read(bytes: &[u8]) -> u64 {
    // SAFETY: pointer and length are one live slice, which the engine only reads.
    unsafe { yenuslap_casebook_read(bytes.as_ptr(), bytes.len()) }
}

/// Says where a record's body lies: value start * 65536 + length (0 for a kind outside 1 to 5), or refusals 1 to 11.
pub fn casebook_part(bytes: &[u8], kind: u8) -> u64 {
    // SAFETY: pointer and length are one live slice, which the engine only reads.
    unsafe { yenuslap_casebook_part(bytes.as_ptr(), bytes.len(), kind) }
}

/// Writes a casebook from its parts into `out`: value bytes written, or refusals 3 to 10 and 18.
pub fn casebook_write(
    k: u8,
    left: &[u8],
    right: &[u8],
    run: &[u8],
    question: &[u8],
    out: &mut [u8],
) -> u64 {
    // SAFETY: each pointer and length are one live slice; only `out`, lent to us alone, is written.
    unsafe {
        yenuslap_casebook_write(
            k,
            left.as_ptr(),
            left.len(),
            right.as_ptr(),
            right.len(),
            run.as_ptr(),
            run.len(),
            question.as_ptr(),
            question.len(),
            out.as_mut_ptr(),
            out.len(),
        )
    }
}

/// Judges a formula on a joint run stopped at a point: value 1 holds, 0 fails, or refusals 3 to 10 and 12.
pub fn joint_verdict(
    k: u8,
    left: &[u8],
    right: &[u8],
    run: &[u8],
    formula: &[u8],
    point: usize,
) -> u64 {
    // SAFETY: each pointer and length are one live slice, which the engine only reads.
    unsafe {
        yenuslap_joint_verdict(
            k,
            left.as_ptr(),
            left.len(),
            right.as_ptr(),
            right.len(),
            run.as_ptr(),
            run.len(),
            formula.as_ptr(),
            formula.len(),
            point,
        )
    }
}

/// Judges a formula on a half run stopped at a point: value 1 holds, 0 fails, or refusals 3 to 7, 9, 10, 12 and 15.
pub fn half_verdict(k: u8, table: &[u8], half: &[u8], formula: &[u8], point: usize) -> u64 {
    // SAFETY: each pointer and length are one live slice, which the engine only reads.
    unsafe {
        yenuslap_half_verdict(
            k,
            table.as_ptr(),
            table.len(),
            half.as_ptr(),
            half.len(),
            formula.as_ptr(),
            formula.len(),
            point,
        )
    }
}

/// Counts the splittings of a joint run: value how many, or refusals 3 to 8 and 13.
pub fn count_splittings(k: u8, left: &[u8], right: &[u8], run: &[u8]) -> u64 {
    // SAFETY: each pointer and length are one live slice, which the engine only reads.
    unsafe {
        yenuslap_count_splittings(
            k,
            left.as_ptr(),
            left.len(),
            right.as_ptr(),
            right.len(),
            run.as_ptr(),
            run.len(),
        )
    }
}

/// Writes the halves of the splitting of a number into `left_out` and `right_out`: value the length of each, or
/// refusals 3 to 8, 13, 14 and 18.
pub fn split(
    k: u8,
    left: &[u8],
    right: &[u8],
    run: &[u8],
    number: usize,
    left_out: &mut [u8],
    right_out: &mut [u8],
) -> u64 {
    // SAFETY: each pointer and length are one live slice; only the outputs, lent to us alone, are written.
    unsafe {
        yenuslap_split(
            k,
            left.as_ptr(),
            left.len(),
            right.as_ptr(),
            right.len(),
            run.as_ptr(),
            run.len(),
            number,
            left_out.as_mut_ptr(),
            left_out.len(),
            right_out.as_mut_ptr(),
            right_out.len(),
        )
    }
}

/// Writes the joint run of two matching halves into `out`: value bytes written, or refusals 3 to 7, 15, 16 and 18.
pub fn join(
    k: u8,
    left: &[u8],
    right: &[u8],
    left_half: &[u8],
    right_half: &[u8],
    out: &mut [u8],
) -> u64 {
    // SAFETY: each pointer and length are one live slice; only `out`, lent to us alone, is written.
    unsafe {
        yenuslap_join(
            k,
            left.as_ptr(),
            left.len(),
            right.as_ptr(),
            right.len(),
            left_half.as_ptr(),
            left_half.len(),
            right_half.as_ptr(),
            right_half.len(),
            out.as_mut_ptr(),
            out.len(),
        )
    }
}

/// Cuts the known half (side 1 left, 2 right, else unnamed) at a point: the part's length, or 0, which is refusal 12.
pub fn cut(left_half: &[u8], right_half: &[u8], side: u8, point: usize) -> usize {
    // SAFETY: each pointer and length are one live slice, which the engine only reads.
    unsafe {
        yenuslap_cut(
            left_half.as_ptr(),
            left_half.len(),
            right_half.as_ptr(),
            right_half.len(),
            side,
            point,
        )
    }
}

/// Writes the quotient of a question by the known one of two halves (side 1 left, 2 right, else unnamed), stopped at a
/// point, into `out`: value bytes written, or refusals 3 to 7, 9, 10, 12 and 15 to 18.
#[allow(clippy::too_many_arguments)] // As many as the engine's call has.
pub fn quotient(
    k: u8,
    left: &[u8],
    right: &[u8],
    left_half: &[u8],
    right_half: &[u8],
    question: &[u8],
    side: u8,
    point: usize,
    out: &mut [u8],
) -> u64 {
    // SAFETY: each pointer and length are one live slice; only `out`, lent to us alone, is written.
    unsafe {
        yenuslap_quotient(
            k,
            left.as_ptr(),
            left.len(),
            right.as_ptr(),
            right.len(),
            left_half.as_ptr(),
            left_half.len(),
            right_half.as_ptr(),
            right_half.len(),
            question.as_ptr(),
            question.len(),
            side,
            point,
            out.as_mut_ptr(),
            out.len(),
        )
    }
}

/// Writes the quotient of a question by the known half of the splitting of a number, stopped at a point, into `out`:
/// value bytes written, or refusals 3 to 10, 12 to 14, 17 and 18.
#[allow(clippy::too_many_arguments)] // As many as the engine's call has.
pub fn quotient_of_splitting(
    k: u8,
    left: &[u8],
    right: &[u8],
    run: &[u8],
    question: &[u8],
    number: usize,
    side: u8,
    point: usize,
    out: &mut [u8],
) -> u64 {
    // SAFETY: each pointer and length are one live slice; only `out`, lent to us alone, is written.
    unsafe {
        yenuslap_quotient_of_splitting(
            k,
            left.as_ptr(),
            left.len(),
            right.as_ptr(),
            right.len(),
            run.as_ptr(),
            run.len(),
            question.as_ptr(),
            question.len(),
            number,
            side,
            point,
            out.as_mut_ptr(),
            out.len(),
        )
    }
}

/// Judges a question on the joint run of two halves and its quotient by the known half on the other one, all stopped at
/// a point: value 2 * joint verdict + half verdict, or refusals 3 to 7, 9, 10, 12 and 15 to 17.
#[allow(clippy::too_many_arguments)] // As many as the engine's call has.
pub fn line_office(
    k: u8,
    left: &[u8],
    right: &[u8],
    left_half: &[u8],
    right_half: &[u8],
    question: &[u8],
    side: u8,
    point: usize,
) -> u64 {
    // SAFETY: each pointer and length are one live slice, which the engine only reads.
    unsafe {
        yenuslap_line_office(
            k,
            left.as_ptr(),
            left.len(),
            right.as_ptr(),
            right.len(),
            left_half.as_ptr(),
            left_half.len(),
            right_half.as_ptr(),
            right_half.len(),
            question.as_ptr(),
            question.len(),
            side,
            point,
        )
    }
}

/// Writes lines of the sheet of any bytes into `out`, from line `first` on, at most `most` and as many as fit: how many
/// lines and bytes were written, or refusal 18.
pub fn sheet_lines(casebook: &[u8], first: usize, most: usize, out: &mut [u8]) -> LinesAnswer {
    // SAFETY: each pointer and length are one live slice; only `out`, lent to us alone, is written.
    unsafe {
        yenuslap_sheet_lines(
            casebook.as_ptr(),
            casebook.len(),
            first,
            most,
            out.as_mut_ptr(),
            out.len(),
        )
    }
}

/// Reads an Aldebaran text into `table_out`: value first state * 65536 + length of the table, or refusals 5 to 7 and 18
/// to 21.
pub fn aldebaran_read(text: &[u8], table_out: &mut [u8]) -> u64 {
    // SAFETY: each pointer and length are one live slice; only `table_out`, lent to us alone, is written.
    unsafe {
        yenuslap_aldebaran_read(
            text.as_ptr(),
            text.len(),
            table_out.as_mut_ptr(),
            table_out.len(),
        )
    }
}

/// Writes the Aldebaran text of a table and a first state into `out`: value bytes written, or refusals 3, 5 to 7,
/// 18 and 20.
pub fn aldebaran_write(table: &[u8], first: usize, out: &mut [u8]) -> u64 {
    // SAFETY: each pointer and length are one live slice; only `out`, lent to us alone, is written.
    unsafe {
        yenuslap_aldebaran_write(
            table.as_ptr(),
            table.len(),
            first,
            out.as_mut_ptr(),
            out.len(),
        )
    }
}
