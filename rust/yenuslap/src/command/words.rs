//! Numbers with their nouns, and foreign texts in messages.

/// A count with its noun, as "1 step" or "2 steps".
pub fn counted(count: usize, noun: &str) -> String {
    match count {
        1 => format!("1 {noun}"),
        _ => format!("{count} {noun}s"),
    }
}

/// How much of a foreign text is shown at most.
const MOST_SHOWN: usize = 40;

/// A foreign text in a message: in quotes, without control characters, and not too long.
pub fn quoted(text: &str) -> String {
    let shown: String = text.chars().take(MOST_SHOWN).collect();
    let more = if shown.len() < text.len() { ".." } else { "" };
    format!("`{}{more}`", shown.escape_debug())
}

/// Rising numbers of lines, as "line 2" or "lines 1 to 3, 7".
pub fn line_numbers(lines: &[usize]) -> String {
    let runs = lines.chunk_by(|first, second| first + 1 == *second);
    let shown: Vec<String> = runs
        .map(|run| match run {
            [line] => line.to_string(),
            _ => format!("{} to {}", run[0], run[run.len() - 1]),
        })
        .collect();
    let noun = if lines.len() == 1 { "line" } else { "lines" };
    format!("{noun} {}", shown.join(", "))
}
