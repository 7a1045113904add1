//! The names of a table's columns, from the statement that made it.
//!
//! No SQL is read here. A statement is taken at its word only where its list is plain: else columns have their numbers.

/// As the format stores every such statement, whatever was typed.
const OPENING: &str = "CREATE TABLE ";
/// What begins with one of these is no column, and neither is what follows it.
const CONSTRAINTS: [&str; 5] = ["constraint", "primary", "unique", "check", "foreign"];

/// The names, in the order in which rows store their values. None where a name is not plain, where something in the list is
/// in double quotes or a comment, or where a column is generated: such a one need not be stored.
pub fn of(statement: &str) -> Option<Vec<&str>> {
    let list = behind_name(statement.strip_prefix(OPENING)?)?.trim_start().strip_prefix('(')?;
    let mut names = Vec::new();
    for item in items(list)? {
        let (name, rest) = item.split_at(item.find(|c| !is_part(c)).unwrap_or(item.len()));
        if CONSTRAINTS.iter().any(|word| word.eq_ignore_ascii_case(name)) {
            break;
        }
        if !is_plain(name) || rest.starts_with(|c: char| !c.is_whitespace()) || is_generated(rest) {
            return None;
        }
        names.push(name);
    }
    (!names.is_empty()).then_some(names)
}

/// What stands behind the table's own name, which may be in quotes.
fn behind_name(text: &str) -> Option<&str> {
    match text.chars().next()? {
        quote @ ('"' | '\'' | '`') => behind_quote(&text[1..], quote),
        '[' => text.split_once(']').map(|(_, rest)| rest),
        _ => Some(text.trim_start_matches(is_part)),
    }
}

/// A quote that is doubled is no end.
fn behind_quote(mut text: &str, quote: char) -> Option<&str> {
    loop {
        text = text.split_once(quote)?.1;
        match text.strip_prefix(quote) {
            Some(rest) => text = rest,
            None => return Some(text),
        }
    }
}

/// The items of a list up to its closing bracket. A comma in brackets or in a text, which stands in single quotes, parts none.
fn items(list: &str) -> Option<Vec<&str>> {
    let (mut items, mut start, mut at, mut depth) = (Vec::new(), 0, 0, 0);
    while let Some(character) = list[at..].chars().next() {
        let (here, rest) = (at, &list[at + character.len_utf8()..]);
        at = list.len() - rest.len();
        match character {
            '\'' => at = list.len() - behind_quote(rest, '\'')?.len(),
            '(' => depth += 1,
            ')' if depth > 0 => depth -= 1,
            ',' | ')' if depth == 0 => {
                items.push(list[start..here].trim());
                start = at;
                if character == ')' {
                    return Some(items);
                }
            }
            '"' | '`' | '[' => return None,
            '-' if rest.starts_with('-') => return None,
            '/' if rest.starts_with('*') => return None,
            _ => {}
        }
    }
    None
}

fn is_part(character: char) -> bool {
    character.is_alphanumeric() || character == '_' || character == '$'
}

fn is_plain(name: &str) -> bool {
    name.starts_with(|c: char| c.is_alphabetic() || c == '_')
}

fn is_generated(rest: &str) -> bool {
    rest.split(|c| !is_part(c)).any(|word| word.eq_ignore_ascii_case("as"))
}

#[cfg(test)]
mod tests {
    use super::*;

    fn named(list: &str) -> Option<String> {
        of(&format!("CREATE TABLE load{list}")).map(|names| names.join(" "))
    }

    #[test]
    fn plain_lists_have_names() {
        for (list, names) in [
            ("(idle)", "idle"),
            ("(idle, coulombs)", "idle coulombs"),
            (" ( idle\n,\tcoulombs ) ", "idle coulombs"),
            ("(id INTEGER PRIMARY KEY, at INTEGER NOT NULL, note TEXT)", "id at note"),
            ("(a VARCHAR(20,2), b DECIMAL(10, 5) DEFAULT (1), c)", "a b c"),
            ("(a DEFAULT 'x, y)', note TEXT NOT NULL DEFAULT '', b DEFAULT 'it''s')", "a note b"),
            ("(a CHECK (a IN (0, 1)), b REFERENCES pack(id))", "a b"),
            ("(a DEFAULT -1, b)", "a b"),
            ("(a, b, PRIMARY KEY (a, b))", "a b"),
            ("(a, b, Constraint one UNIQUE (a), FOREIGN KEY (b) REFERENCES t(b))", "a b"),
            ("(_a, größe, x2, y$) STRICT", "_a größe x2 y$"),
            ("(uniquely, checked)", "uniquely checked"),
        ] {
            assert_eq!(named(list).as_deref(), Some(names), "{list}");
        }
    }

    #[test]
    fn other_lists_have_none() {
        for list in [
            "",
            "()",
            "(a",
            "(a, 'b)",
            "(a, )",
            "(a, \"b\")",
            "(`a`)",
            "([a b])",
            "('a')",
            "(a, 2b)",
            "($a)",
            "(a.b)",
            "(a, b /* , c */)",
            "(a, -- b\nc)",
            "(a \"odd type\")",
            "(a, b AS (a + 1))",
            "(a, b INT GENERATED ALWAYS AS (a) VIRTUAL)",
            "(PRIMARY KEY (a))",
            " AS SELECT 1",
        ] {
            assert_eq!(named(list), None, "{list}");
        }
        for statement in ["", "CREATE VIRTUAL TABLE far USING x(a)", "create table t(a)", "CREATE TABLE \"t(a)"] {
            assert_eq!(of(statement), None, "{statement}");
        }
    }

    /// A table that was renamed stands in quotes.
    #[test]
    fn the_tables_own_name_may_be_in_quotes() {
        for name in ["\"load\"", "\"a \"\"b\"\" (c)\"", "'load'", "`load(x)`", "[load (x)]", "größe "] {
            assert_eq!(of(&format!("CREATE TABLE {name}(a, b)")), Some(vec!["a", "b"]), "{name}");
        }
    }
}
