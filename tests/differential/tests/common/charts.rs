//! Charts from the lines of files.

/// The lengths that document 000 prints for fields 3 to the last.
pub const WIDTHS: [(&str, &[usize]); 5] = [
    (
        "IP",
        &[
            9, 2, 15, 4, 15, 50, 50, 50, 4, 35, 35, 35, 35, 60, 3, 2, 12, 2, 2, 3, 2, 1, 8, 1, 1,
        ],
    ),
    (
        "II",
        &[
            9, 1, 1, 8, 1, 15, 4, 3, 2, 9, 4, 3, 20, 4, 5, 3, 2, 3, 2, 1600,
        ],
    ),
    ("IE", &[9, 15, 2]),
    ("IN", &[9, 1, 8, 3, 4, 2]),
    ("IA", &[9, 15]),
];

/// The chart of the numbered lines of a text, or nothing where one does not fit.
pub fn chart_of(lines: &str) -> Option<Vec<u8>> {
    let mut chart = Vec::new();
    for line in lines.lines() {
        let fields: Vec<&str> = line.split('|').collect();
        let Some(kind) = WIDTHS.iter().position(|(name, _)| *name == fields[0]) else {
            continue;
        };
        chart.push(kind as u8 + 1);
        for (text, &width) in fields[2..].iter().zip(WIDTHS[kind].1) {
            if text.len() > width {
                return None;
            }
            chart.extend(format!("{text:width$}").bytes());
        }
    }
    Some(chart)
}
