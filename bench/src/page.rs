//! The page of docs, in Markdown.

use crate::measure::{self, Times};
use crate::table::{self, Row};
use crate::{Plan, SMALL_RUNS};

/// The page up to the writer.
pub fn checks(plan: &Plan, rows: &[Row], book: usize, call: &Times) -> String {
    format!(
        "# Speed\n\n\
        The check, and the writer at the end, against the independent Rust implementation of `tests/differential`, both\n\
        x86-64, in one process and one run. `bench/run` measures and writes this page; `bench/run --quick` tries it on small\n\
        files and writes nothing.\n\n\
        Measured on {date}, the product at {product}: {machine}.\n\n\
        Full size is a file of 5,000,000 bytes (fewer where the records are at their highest number, 99,999), a book of about\n\
        200 KB and a ledger of 100,000 slots, 60% of them live (40% for one patient); a part of it has a part of each. Each\n\
        time is the processor time of the check alone, without the filling of ledger and findings area: the median of up to {runs}\n\
        runs, fewer where one takes seconds. For every run the two answers, ledgers and areas were compared, byte for byte,\n\
        and were the same. A dash: left out, for it would take over {limit} s.\n\n\
        {families}\n\
        ## At the largest size\n\n\
        The ratio is the product's time over the other's. Growth is the time for a byte of the file at the largest size over\n\
        that at the smallest: 1 where the time is in proportion to the size.\n\n\
        {ratios}\n\
        ## At each size\n\n\
        Milliseconds, the product's / the independent implementation's.\n\n\
        {sizes}\n\
        A call on a file of {bytes} bytes, a book of {book} and a ledger of none: {product_call:.2} µs; the independent implementation's\n\
        {independent_call:.2}. Medians of {small_runs} runs of {calls} calls.\n",
        date = plan.date,
        product = plan.product,
        machine = machine(),
        runs = plan.runs,
        limit = plan.limit.as_secs(),
        families = table::families(rows, ["its files", "the answer to the largest"]),
        ratios = table::ratios(rows),
        sizes = table::sizes(rows),
        bytes = call.bytes,
        book = book,
        product_call = call.product.as_secs_f64() * 1e6,
        independent_call = call.independent.as_secs_f64() * 1e6,
        small_runs = SMALL_RUNS,
        calls = measure::CALLS,
    )
}

/// The section on the writer.
pub fn writings(plan: &Plan, rows: &[Row]) -> String {
    format!(
        "\n## The writer\n\n\
        Full size is a chart whose file has 5,000,000 bytes or little less, and the lent area has room for 5,000,000. An II of\n\
        a chart has 1,700 bytes, most of them blanks that are not written, so that a chart may be forty times as long as its\n\
        file; the time is for a byte of the file that is written. Each time is the processor time of the writer alone: the\n\
        median of up to {runs} runs, each with nothing of the chart in the caches, so that short charts and long ones may be\n\
        compared. For every run the two answers, lengths and areas were compared, byte for byte, and were the same.\n\n\
        {families}\n\
        {ratios}\n\
        Milliseconds at each size, the product's / the independent implementation's.\n\n\
        {sizes}",
        runs = plan.runs,
        families = table::families(rows, ["its charts", "the largest"]),
        ratios = table::ratios(rows),
        sizes = table::sizes(rows),
    )
}

/// The processor as the system names it.
fn machine() -> String {
    let about = std::fs::read_to_string("/proc/cpuinfo").unwrap_or_default();
    let names: Vec<&str> = about
        .lines()
        .filter(|line| line.starts_with("model name"))
        .filter_map(|line| line.split(": ").nth(1))
        .collect();
    let name = names.first().unwrap_or(&"a processor without a name");
    format!("{name}, {} cores, {}", names.len(), std::env::consts::ARCH)
}
