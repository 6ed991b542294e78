//! The same work in plain Rust, with only the standard library. It reads a table as text, and keeps where each line ends, the
//! first column of each name, and the rows of each normalised identifier. It does so the given number of times.

use std::collections::HashMap;

struct Table {
    text: String,
    ends: Vec<usize>,
    columns: HashMap<String, usize>,
    index: HashMap<String, Vec<u32>>,
}

fn normalised(cell: &str) -> String {
    cell.chars().filter(|c| *c != '-' && *c != ' ').map(|c| c.to_ascii_uppercase()).collect()
}

fn read(bytes: &[u8]) -> Option<Table> {
    let bytes = bytes.strip_prefix(b"\xEF\xBB\xBF").unwrap_or(bytes);
    let whole = std::str::from_utf8(bytes).ok()?;
    let mut text = String::with_capacity(whole.len());
    let mut ends = Vec::new();
    for line in whole.split(['\n', '\r']).filter(|line| !line.is_empty()) {
        if line.len() > 65_536 || ends.len() > 200_000 {
            return None;
        }
        text.push_str(line);
        ends.push(text.len());
    }
    let mut columns = HashMap::new();
    for (column, name) in text[..*ends.first()?].split('\t').enumerate() {
        columns.entry(name.to_string()).or_insert(column);
    }
    let places = [columns.get("print_identifier").copied(), columns.get("online_identifier").copied()];
    let mut index: HashMap<String, Vec<u32>> = HashMap::new();
    for row in 1..ends.len() {
        let line = &text[ends[row - 1]..ends[row]];
        let mut last = None;
        for place in places.iter().flatten() {
            let id = line.split('\t').nth(*place).filter(|cell| !cell.is_empty()).map(normalised);
            if let Some(id) = id.filter(|id| last.as_ref() != Some(id)) {
                index.entry(id.clone()).or_default().push(row as u32 - 1);
                last = Some(id);
            }
        }
    }
    Some(Table { text, ends, columns, index })
}

fn main() {
    let words: Vec<String> = std::env::args().collect();
    let bytes = std::fs::read(&words[1]).unwrap();
    for _ in 0..words[2].parse::<u32>().unwrap() {
        let table = read(&bytes).unwrap();
        assert!(table.ends.len() > 1 && !table.text.is_empty() && !table.columns.is_empty() && !table.index.is_empty());
    }
}
