//! How the rows of a table are laid out: the widths of its columns, in digits.

use super::line::{self, Line, Shown};
use super::value;
use shorgavel::{TextEncoding, Value};

/// So many digits stand side by side on a tablet that is 800 wide, and on a printed sheet of A4, also in a wide type.
const WIDTH: usize = 100;
/// A wider screen has room for more of long texts.
const WIDEST: usize = 150;
/// The space around a value.
const SPACE: usize = 2;
/// Where columns would be narrower, values follow each other in one.
const LEAST: usize = 7;
/// Longer lines of a text are broken.
const LINE: usize = 60;
/// What stands between two values that differ, with the space around them.
const BETWEEN: &str = "  ≠  ";
/// What the words of a refusal take at least, across all values.
const REFUSAL: usize = 44;

/// What the columns of a table need.
pub struct Form {
    encoding: TextEncoding,
    /// Number, place, readings and guarded: what stands beside the values.
    about: [usize; 4],
    /// Each value, with its name.
    values: Vec<Column>,
    /// Whether a line has the words of a refusal in their place.
    refuses: bool,
    words: String,
}

/// How wide a column's values are, and whether texts or blobs are among them, which stand on the left.
#[derive(Clone, Copy, Default)]
pub struct Column {
    pub width: usize,
    pub texts: bool,
}

/// How wide the columns of a table are.
pub struct Layout {
    /// Those before the values, and those behind them.
    before: Vec<usize>,
    behind: Vec<usize>,
    pub values: Values,
    /// The table's own width, where the screen has room for it.
    pub width: usize,
}

pub enum Values {
    /// A column for each.
    Grid(Vec<Column>),
    /// So many values, in one column for all of them, where they follow each other.
    Flow(usize),
}

impl Form {
    /// Columns have room for their names.
    pub fn new(names: &[String], encoding: TextEncoding) -> Form {
        let named = |name: &String| Column { width: name.chars().count().min(LINE), texts: false };
        let values = names.iter().map(named).collect();
        let about = ["1000", "2·100", "old† = file", "Guarded"].map(|words| words.chars().count());
        Form { encoding, about, values, refuses: false, words: String::new() }
    }

    /// Makes room for a line.
    pub fn measure(&mut self, page: u32, cell: usize, line: &Line<'_, '_>) {
        let number = line.number.map_or(0, |number| number.to_string().len());
        let place = page.to_string().len() + 1 + cell.to_string().len();
        let guarded = line.sides.as_ref().and_then(|sides| sides.guarded);
        // Letters take less than digits.
        let guarded = guarded.map_or(0, |shown| line::guarded(shown).len() * 4 / 5);
        for (width, needed) in self.about.iter_mut().zip([number, place, 0, guarded]) {
            *width = needed.max(*width);
        }
        match line.shown {
            Shown::Refused(_) => self.refuses = true,
            Shown::Row(row) => {
                row.values().enumerate().for_each(|(column, shown)| self.value(column, shown, None));
            }
            Shown::Differing(old, file) => {
                let pairs = old.values().zip(file.values()).enumerate();
                pairs.for_each(|(column, (shown, wrote))| self.value(column, shown, (shown != wrote).then_some(wrote)));
            }
        }
    }

    fn value(&mut self, column: usize, shown: Value<'_>, wrote: Option<Value<'_>>) {
        self.words.clear();
        value::put(&mut self.words, shown, self.encoding);
        if let Some(wrote) = wrote {
            self.words.push_str(BETWEEN);
            value::put(&mut self.words, wrote, self.encoding);
        }
        if self.values.len() <= column {
            self.values.resize(column + 1, Column::default());
        }
        let known = &mut self.values[column];
        known.width = known.width.max(value::width(&self.words).min(LINE));
        known.texts |= value::is_text(shown) || wrote.is_some_and(value::is_text);
    }

    /// `readings` tells whether lines name their readings.
    pub fn layout(&self, readings: bool) -> Layout {
        let about = self.about.map(|width| width + SPACE);
        let (before, behind) = about.split_at(if readings { 3 } else { 2 });
        let behind = if readings { behind } else { &[] };
        let (beside, columns) = (before.iter().chain(behind).sum::<usize>(), self.columns());
        let width = (beside + total(&columns)).min(WIDEST);
        let fitted = fitted(&columns, WIDTH.saturating_sub(beside));
        let values = fitted.map_or(Values::Flow(self.values.len()), Values::Grid);
        Layout { before: before.to_vec(), behind: behind.to_vec(), values, width }
    }

    /// With the space around values, and with room for a refusal. There is one at least, for rows that have none.
    fn columns(&self) -> Vec<Column> {
        let mut columns = self.values.clone();
        columns.resize(columns.len().max(1), Column::default());
        columns.iter_mut().for_each(|column| column.width += SPACE);
        let room = if self.refuses { REFUSAL.saturating_sub(total(&columns)) } else { 0 };
        let more = (room + columns.len() - 1) / columns.len();
        columns.iter_mut().for_each(|column| column.width += more);
        columns
    }
}

fn total(columns: &[Column]) -> usize {
    columns.iter().map(|column| column.width).sum()
}

/// The widest columns are narrowed, all to one width, until all fit; none where they do not.
fn fitted(columns: &[Column], room: usize) -> Option<Vec<Column>> {
    let narrowed = |most: usize| columns.iter().map(move |column| Column { width: column.width.min(most), ..*column });
    (LEAST..=LINE + SPACE).rev().map(|most| narrowed(most).collect::<Vec<_>>()).find(|columns| total(columns) <= room)
}

impl Layout {
    /// The widths of all columns.
    pub fn widths(&self) -> Vec<usize> {
        let beside: usize = self.before.iter().chain(&self.behind).sum();
        let values = match &self.values {
            Values::Grid(columns) => columns.iter().map(|column| column.width).collect(),
            Values::Flow(_) => vec![WIDTH.saturating_sub(beside)],
        };
        [&self.before[..], &values, &self.behind].concat()
    }

    pub fn names_readings(&self) -> bool {
        !self.behind.is_empty()
    }

    /// How many columns the values take.
    pub fn span(&self) -> usize {
        match &self.values {
            Values::Grid(columns) => columns.len(),
            Values::Flow(_) => 1,
        }
    }

    /// Whether a column's values stand on the left.
    pub fn is_left(&self, column: usize) -> bool {
        matches!(&self.values, Values::Grid(columns) if columns[column].texts)
    }

    pub fn flows(&self) -> bool {
        matches!(self.values, Values::Flow(_))
    }
}

#[cfg(test)]
mod tests {
    use super::*;

    fn narrowed(widths: &[usize], room: usize) -> Option<Vec<usize>> {
        let columns: Vec<_> = widths.iter().map(|&width| Column { width, texts: false }).collect();
        fitted(&columns, room).map(|columns| columns.iter().map(|column| column.width).collect())
    }

    #[test]
    fn the_widest_columns_are_narrowed() {
        assert_eq!(narrowed(&[3, 5, 9], 20), Some(vec![3, 5, 9]));
        assert_eq!(narrowed(&[3, 62, 40], 53), Some(vec![3, 25, 25]));
        assert_eq!(narrowed(&[3, 62, 10], 53), Some(vec![3, 40, 10]));
        assert_eq!(narrowed(&[6; 12], 63), None);
    }

    #[test]
    fn names_and_readings_take_room() {
        let form = Form::new(&["idle".to_string(), "coulombs".to_string()], TextEncoding::Utf8);
        assert_eq!(form.layout(true).widths(), [6, 7, 13, 6, 10, 9]);
        assert_eq!(form.layout(false).widths(), [6, 7, 6, 10]);
    }
}
