//! Files, tables and states in hexadecimal, for reproductions.

use crate::model::state_words::PARTS;
use crate::model::tables::{TableWords, CONNECTION_WORDS, TASK_WORDS};

/// Longer files are cut; the seed and the number of the case make them again.
const SHOWN_BYTES: usize = 2_000;

pub fn file(file: &[u8]) -> String {
    let shown = &file[..file.len().min(SHOWN_BYTES)];
    let hex: String = shown.iter().map(|byte| format!("{byte:02x}")).collect();
    let cut = if shown.len() < file.len() { "..." } else { "" };
    format!("file: {} bytes {hex}{cut}", file.len())
}

/// The input of the step program, with what is not printable escaped.
pub fn calls(calls: &[u8]) -> String {
    let shown = &calls[..calls.len().min(SHOWN_BYTES)];
    let cut = if shown.len() < calls.len() { "..." } else { "" };
    format!(
        "calls: {} bytes \"{}\"{cut}",
        calls.len(),
        shown.escape_ascii()
    )
}

pub fn tables(words: &TableWords) -> String {
    let tasks = rows(&words.tasks, TASK_WORDS);
    let connections = rows(&words.connections, CONNECTION_WORDS);
    format!("tasks: {tasks}; connections: {connections}")
}

fn rows(words: &[u16], row_words: usize) -> String {
    let row = |row: &[u16]| hex(&row.iter().map(|word| (*word).into()).collect::<Vec<u32>>());
    let rows: Vec<String> = words.chunks(row_words).map(row).collect();
    rows.join(" / ")
}

/// The words of a state part by part, each without the zeros at its end.
pub fn state(words: &[u32]) -> Vec<String> {
    let mut left = words;
    let mut lines = vec![format!("state of {} words:", words.len())];
    for part in &PARTS {
        let (of_part, rest) = left.split_at(left.len().min(part.rows * part.limits.len()));
        let used = of_part.iter().rposition(|word| *word != 0);
        let used = used.map_or(0, |last| last + 1);
        lines.push(format!("  {}: {}", part.name, hex(&of_part[..used])));
        left = rest;
    }
    lines
}

fn hex(words: &[u32]) -> String {
    let words: Vec<String> = words.iter().map(|word| format!("{word:x}")).collect();
    words.join(" ")
}
