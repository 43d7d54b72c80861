//! The product's check and its writer, over its C interface.

use differential::check::Answer;
use differential::write::Written;

#[repr(C)]
struct Numbers {
    answer: u32,
    line: u32,
    cause: u32,
    findings: u32,
    added: u32,
    changed: u32,
    deleted: u32,
    not_immunized: u32,
}

#[repr(C)]
struct WrittenNumbers {
    answer: u32,
    length: u32,
}

#[link(name = "tuulveski", kind = "static")]
extern "C" {
    fn tuulveski_check(
        today: u32,
        file: *const u8,
        file_len: usize,
        book: *const u8,
        book_len: usize,
        ledger: *mut u8,
        ledger_len: usize,
        findings: *mut u8,
        findings_len: usize,
    ) -> Numbers;

    fn tuulveski_write(
        prefix: *const u8,
        prefix_len: usize,
        batch: *const u8,
        batch_len: usize,
        chart: *const u8,
        chart_len: usize,
        out: *mut u8,
        out_len: usize,
    ) -> WrittenNumbers;
}

pub fn check(
    today: u32,
    file: &[u8],
    book: &[u8],
    ledger: &mut [u8],
    findings: &mut [u8],
) -> Answer {
    // SAFETY: each pointer comes with the length of its own slice, and the two
    // areas that may be written are borrowed alone.
    let numbers = unsafe {
        tuulveski_check(
            today,
            file.as_ptr(),
            file.len(),
            book.as_ptr(),
            book.len(),
            ledger.as_mut_ptr(),
            ledger.len(),
            findings.as_mut_ptr(),
            findings.len(),
        )
    };
    Answer {
        answer: numbers.answer,
        line: numbers.line,
        cause: numbers.cause,
        findings: numbers.findings,
        added: numbers.added,
        changed: numbers.changed,
        deleted: numbers.deleted,
        not_immunized: numbers.not_immunized,
    }
}

pub fn write(prefix: &[u8], batch: &[u8], chart: &[u8], out: &mut [u8]) -> Written {
    // SAFETY: each pointer comes with the length of its own slice, and the area that
    // may be written is borrowed alone.
    let numbers = unsafe {
        tuulveski_write(
            prefix.as_ptr(),
            prefix.len(),
            batch.as_ptr(),
            batch.len(),
            chart.as_ptr(),
            chart.len(),
            out.as_mut_ptr(),
            out.len(),
        )
    };
    Written {
        answer: numbers.answer,
        length: numbers.length,
    }
}
