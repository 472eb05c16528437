//! Cells of comma-separated values (RFC 4180).

/// A text as a cell: in quotes where it has what would end a cell, with each quote in it twice.
pub fn cell(text: &str) -> String {
    if !text.contains([',', '"', '\r', '\n']) {
        return text.to_string();
    }
    format!("\"{}\"", text.replace('"', "\"\""))
}

/// The cells of a line, without the blanks around them; none where a quote is not closed, or something stands behind one that is.
pub fn cells_of(line: &str) -> Option<Vec<String>> {
    let (mut cells, mut rest) = (Vec::new(), line);
    loop {
        let (cell, behind) = first_cell(rest)?;
        cells.push(cell);
        match behind {
            Some(behind) => rest = behind,
            None => return Some(cells),
        }
    }
}

/// The first cell, and what stands behind its comma, if there is one.
fn first_cell(line: &str) -> Option<(String, Option<&str>)> {
    let Some(mut quoted) = line.trim_start().strip_prefix('"') else {
        let (cell, behind) = line.split_once(',').map_or((line, None), |(cell, behind)| (cell, Some(behind)));
        return Some((cell.trim().to_string(), behind));
    };
    let mut cell = String::new();
    loop {
        let (text, behind) = quoted.split_once('"')?;
        cell += text;
        let Some(twice) = behind.strip_prefix('"') else { return Some((cell, behind_quote(behind)?)) };
        cell.push('"');
        quoted = twice;
    }
}

/// What stands behind the comma after a closing quote; nothing at all may stand before it.
fn behind_quote(behind: &str) -> Option<Option<&str>> {
    match behind.trim_start().strip_prefix(',') {
        Some(next) => Some(Some(next)),
        None if behind.trim().is_empty() => Some(None),
        None => None,
    }
}

#[cfg(test)]
mod tests {
    use super::*;

    #[test]
    fn what_is_written_is_read() {
        for text in ["", "a", "a b", "a,b", "say \"a\"", "\"", ",", "\",\"", "ä"] {
            let line = format!("{},{},1", cell(text), cell(text));
            assert_eq!(cells_of(&line), Some(vec![text.to_string(), text.to_string(), "1".to_string()]), "{line}");
        }
    }

    #[test]
    fn cells_of_a_line() {
        let cells = |line: &str| cells_of(line).map(|cells| cells.join("|"));
        assert_eq!(cells("a, b ,,"), Some("a|b||".to_string()));
        assert_eq!(cells(" \"a,b\" , c"), Some("a,b|c".to_string()));
        assert_eq!(cells(""), Some(String::new()));
        for damaged in ["\"a", "\"a\"b,c", "a,\"b\" c", "\"a\"\""] {
            assert_eq!(cells_of(damaged), None, "{damaged}");
        }
    }
}
