//! Statements in lines that a printer has room for.

use crate::out::Out;

const WIDTH: usize = 100;
/// Where a statement begins, behind its label.
const INDENT: usize = 10;

/// A statement behind its label, in as many lines as it takes. A word that is longer than a line is cut.
pub fn put(out: &mut Out, label: &str, statement: &str) {
    out.text(lines(label, INDENT, statement).as_bytes());
}

/// The same with no label and no room for one.
pub fn put_wide(out: &mut Out, statement: &str) {
    out.text(lines("", 0, statement).as_bytes());
}

fn lines(label: &str, indent: usize, statement: &str) -> String {
    let (mut all, mut line) = (String::new(), format!("{label:indent$}"));
    let mut at = indent;
    for word in statement.split(' ').flat_map(|word| pieces(word, WIDTH - indent)) {
        let length = word.chars().count();
        if at > indent && at + 1 + length > WIDTH {
            all.push_str(line.trim_end());
            all.push('\n');
            line = " ".repeat(indent);
            at = indent;
        }
        if at > indent {
            line.push(' ');
            at += 1;
        }
        line.push_str(&word);
        at += length;
    }
    all + line.trim_end() + "\n"
}

fn pieces(word: &str, most: usize) -> Vec<String> {
    let characters: Vec<char> = word.chars().collect();
    match characters.len() {
        0 => vec![String::new()],
        _ => characters.chunks(most).map(|piece| piece.iter().collect()).collect(),
    }
}

#[cfg(test)]
mod tests {
    use super::*;

    #[test]
    fn a_statement_stands_behind_its_label() {
        assert_eq!(lines("agrees", INDENT, "load: all 4 rows"), "agrees    load: all 4 rows\n");
        assert_eq!(lines("", INDENT, "a  b"), "          a  b\n");
        assert_eq!(lines("", 0, ""), "\n");
    }

    #[test]
    fn no_line_is_longer_than_a_printer_has_room_for() {
        let long = format!("{} {} end", "word ".repeat(40), "Ω".repeat(200));
        let all = lines("parts", INDENT, &long);
        assert!(all.lines().all(|line| line.chars().count() <= WIDTH));
        assert!(all.lines().skip(1).all(|line| line.starts_with("          ")));
        let together: String = all.split_whitespace().skip(1).collect();
        assert_eq!(together, long.split_whitespace().collect::<String>());
        let full = "x".repeat(WIDTH - INDENT);
        assert_eq!(lines("", INDENT, &full), format!("          {full}\n"));
    }
}
