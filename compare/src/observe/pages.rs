//! What pages redone alone met.

use super::is_on_page;
use crate::cover::Cover;
use crate::paper::{get_cell, get_mark, rows_of, Ledger, Paper, Row, CHANGE};
use crate::store::{Answer, PAGE, RIGHT, ROWS};

/// What a store has shown: pages redone alone by its function, and the copy of its opening before it goes
/// backward or the refusal of that opening.
#[derive(Clone, Copy, PartialEq, Eq)]
pub enum Shown {
    Pages,
    Copy,
    Refusal,
}

/// These pages of the stored charts were redone alone. `met` has the stores that were compared, and `forward`
/// what the opening's forward part comes to, if it is not refused.
pub fn redone(
    cover: &mut Cover,
    paper: &Paper,
    met: &[(&'static str, Shown)],
    pages: &[u8],
    forward: Option<&(Ledger, Vec<u8>)>,
) {
    let rows = rows_of(&paper.log);
    let Some((ledger, _)) = forward else {
        let has = |store, shown| met.contains(&(store, shown));
        cover.shape_if(
            has("fast", Shown::Refusal),
            "pages alone of a store that the opening of fast refuses",
        );
        cover
            .shape_if(has("proved", Shown::Pages), "pages alone of such a store by the function for C");
        cover.shape_if(rows.len() == ROWS, "pages alone of such a store, 4,096 rows");
        for (at, page) in pages.iter().enumerate() {
            if !pages[..at].contains(page) {
                unchecked(cover, &paper.charts, &rows, *page);
            }
        }
        return;
    };
    let all = (0..32).all(|page| pages.contains(&page));
    let has = |store, shown| all && met.contains(&(store, shown));
    cover.shape_if(has("paper", Shown::Copy), "all pages alone, the copy of the paper's opening");
    cover.shape_if(has("fast", Shown::Copy), "all pages alone, the copy of the opening of fast");
    cover.shape_if(has("fast", Shown::Pages), "all pages alone by fast");
    cover.shape_if(has("proved", Shown::Pages), "all pages alone by the function for C");
    cover.shape_if(all && pages.len() == 32, "all pages alone, each once");
    cover.shape_if(all && pages.len() > 32, "all pages alone, some again");
    cover.shape_if(!all, "some pages alone");
    cover.shape_if(ledger.rows.len() == ROWS, "pages alone of a full log");
    cover.shape_if(ledger.rows.is_empty(), "pages alone of an empty log");
    for (at, page) in pages.iter().enumerate() {
        let again = pages[..at].contains(page);
        cover.shape_if(again, "page alone again");
        cover.shape_if(at > 0 && !again && pages[at - 1] > *page, "page alone after a later one");
        if again {
            continue;
        }
        let mark = usize::from(get_mark(&paper.charts, usize::from(*page)));
        let above: Vec<&Row> = rows[mark..].iter().filter(|row| is_on_page(row, *page)).collect();
        cover.shape_if(!above.is_empty(), "page alone with rows above its mark");
        let moved = mark > 0 && rows[mark - 1].change != 0;
        cover.shape_if(moved, "page alone whose mark is a row that moved a cell");
        cover.shape_if(moved && !above.is_empty(), "page alone with such a mark and rows above it");
        let other = above.is_empty() && rows[mark..].iter().any(Row::is_change_or_undo);
        cover.shape_if(other, "page alone with rows of other pages above its mark");
        let falls = ledger.open_changes().any(|change| change.cell / 7 == *page);
        cover.shape_if(falls, "page alone that the opening goes on to change");
    }
}

/// A page that was redone alone, where an opening refuses the log or the charts.
fn unchecked(cover: &mut Cover, charts: &[u8], rows: &[Row], page: u8) {
    let at = PAGE * usize::from(page);
    let mark = usize::from(get_mark(charts, usize::from(page)));
    let placed = || rows.iter().zip(1..).skip(mark);
    cover.shape_if(mark > rows.len(), "unchecked page alone, a mark beyond the rows");
    cover.shape_if(charts[at + 2..at + 4] != [0, 0], "unchecked page alone, bytes 2-3 not zero");
    let unknown = placed().any(|(row, _)| row.kind > 7);
    cover.shape_if(unknown, "unchecked page alone, an unknown kind above its mark");
    let mut cells: [i64; 7] =
        std::array::from_fn(|cell| i64::from(get_cell(charts, page * 7 + cell as u8)));
    let (mut moved, mut other_number, mut wraps) = (false, false, false);
    for (row, place) in placed().filter(|(row, _)| is_on_page(row, page) && row.change != 0) {
        let cell = &mut cells[usize::from(row.cell % 7)];
        *cell += if row.kind == CHANGE { 1 } else { -1 } * i64::from(row.change);
        moved = true;
        other_number |= usize::from(row.number) != place;
        wraps |= i32::try_from(*cell).is_err();
    }
    cover.shape_if(moved, "unchecked page alone, moved");
    cover.shape_if(other_number, "unchecked page alone, moved by a row with another number");
    cover.shape_if(wraps, "unchecked page alone, a sum that wraps");
}

/// A page of this number was redone with a log and a page of these lengths.
pub fn lent(cover: &mut Cover, log: usize, page: usize, number: u8, answer: Answer) {
    let label = match answer.number {
        0 => "done",
        1 if log != RIGHT.log => "1 log",
        1 => "1 page",
        14 => "14",
        _ => "another number",
    };
    cover.answer("redo page", label);
    let lengths = log != RIGHT.log || page != PAGE;
    let both = [(lengths, "1"), (number > 31, "14")];
    let holding: Vec<&'static str> =
        both.into_iter().filter_map(|(holds, label)| holds.then_some(label)).collect();
    cover.conditions("redo page", &holding);
}
