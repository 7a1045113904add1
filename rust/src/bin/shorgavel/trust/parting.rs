//! Why a row parts, in words for who printed the sheet and who asks what the gauge wrote.

use crate::folded;
use crate::leaf::{Leaf, Lent, Standing, Trio};
use crate::out::Out;
use crate::reason::{self, Cause};
use crate::words;
use shorgavel::{Cell, Gauge, Mark, Place, Refusal, TextEncoding, Value};

/// The number of a refusal: the payload spills, and no gather buffer is lent.
const SPILLS: u8 = 18;

/// The row is read anew in both readings, a long note too, and what each has of it is told.
pub fn put(
    out: &mut Out,
    gauge: &Gauge<'_>,
    place: Place,
    refusal: Refusal,
    encoding: TextEncoding,
) -> Result<(), Refusal> {
    let (leaf, mut lent) = (Leaf::open(gauge, place.page())?, Lent::default());
    let trio = leaf.trio(place.cell(), &mut lent);
    // With notes lent, a row that spills may have a lower mark; that it spills is what the table is refused for.
    let mark = if refusal.number() == SPILLS { Some(Mark::Spills) } else { refusal.mark() };
    if let Some(mark) = mark.filter(|mark| *mark == Mark::Spills || !names_columns(&trio)) {
        folded::put(out, "", why(mark));
    }
    let whole = leaf.refused_whole();
    // What stands on a page that no tablet showed, a sheet would only have shown of the row alone.
    let sheet = if whole.is_some() { "sheet would show" } else { "sheet shows" };
    statements(&trio, sheet, encoding).iter().for_each(|statement| folded::put(out, "", statement));
    if let Some(refusal) = whole {
        folded::put(out, "", &on_no_sheet(place.page(), refusal));
    }
    Ok(())
}

/// The original answers a page whole or not at all.
fn on_no_sheet(page: u32, refusal: Refusal) -> String {
    let cell = refusal.cell().map_or(String::new(), |cell| format!(" for cell {cell}"));
    format!("No sheet has any row of page {page}: the tablets' reader refuses it whole{cell} ({}).", refusal.number())
}

/// Whether what the old reading is not made for is told with a column.
fn names_columns(trio: &Trio<'_>) -> bool {
    match trio.standing() {
        Standing::Differ(old, file, guarded) if reason::are_alike(old, file) => {
            reason::differing(old, file).next().is_some_and(|(_, _, wrote)| Cause::of(guarded.mark(), wrote).is_some())
        }
        _ => false,
    }
}

fn statements(trio: &Trio<'_>, sheet: &str, encoding: TextEncoding) -> Vec<String> {
    match trio.standing() {
        // Guarded refused it, and does so with notes lent too.
        Standing::Agree => Vec::new(),
        Standing::Differ(old, file, guarded) => differ(old, file, guarded.mark(), sheet, encoding),
        Standing::OldRefuses(old, file, _) => {
            let cannot = format!("The sheet cannot show it: {}.", old.meaning());
            vec![cannot, row("The gauge wrote", file, encoding)]
        }
        Standing::FileRefuses(old, file) => vec![damaged(file), row(&format!("The {sheet}"), old, encoding)],
        Standing::Refused => {
            let neither = "The sheet cannot show it either.".to_string();
            trio.file.as_ref().err().map(|file| damaged(*file)).into_iter().chain([neither]).collect()
        }
    }
}

fn differ(old: &Cell<'_>, file: &Cell<'_>, mark: Option<Mark>, sheet: &str, encoding: TextEncoding) -> Vec<String> {
    if !reason::are_alike(old, file) {
        return vec![row(&format!("The {sheet}"), old, encoding), row("The gauge wrote", file, encoding)];
    }
    let mut differing = reason::differing(old, file);
    let Some((column, shown, wrote)) = differing.next() else {
        return vec!["Here both show the same, but of such a row that is not certain.".to_string()];
    };
    let mut first = format!("Column {column} {}: the {sheet} ", cause(mark, wrote));
    words::value(&mut first, shown, encoding);
    first.push_str(", the gauge wrote ");
    words::value(&mut first, wrote, encoding);
    match differing.count() {
        0 => vec![first],
        1 => vec![first, "One more column of it differs.".to_string()],
        more => vec![first, format!("{more} more columns of it differ.")],
    }
}

fn cause(mark: Option<Mark>, wrote: Value<'_>) -> &'static str {
    match Cause::of(mark, wrote) {
        Some(Cause::StoredOne) => "is a stored 1, which the old reading takes for 0",
        Some(Cause::EmptyText) => "is an empty text, which the old reading takes for nothing",
        Some(Cause::EmptyBlob) => "is an empty blob, which the old reading takes for nothing",
        Some(Cause::Spills) | None => "differs",
    }
}

/// What of the row the old reading is not made for.
fn why(mark: Mark) -> &'static str {
    match mark {
        Mark::LongVarint => "A number in it takes over five bytes: the old reading reads five at most.",
        Mark::LongHeaderSize => "The list of its types is so long that the old reading takes its length wrong.",
        Mark::TypeNine => "It has a stored 1, which the old reading takes for 0.",
        Mark::NoBytes => "It has an empty text or blob, which the old reading takes for nothing.",
        Mark::Spills => "Its payload spills to other pages: the old reading does not follow it.",
    }
}

fn damaged(refusal: Refusal) -> String {
    format!("As it stands in the file it is damaged: {} ({}).", refusal.meaning(), refusal.number())
}

fn row(before: &str, cell: &Cell<'_>, encoding: TextEncoding) -> String {
    let mut words = format!("{before} ");
    words::row(&mut words, cell, encoding);
    words
}
