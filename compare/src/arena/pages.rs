//! Pages redone alone (02, L3). A store that has a function for it must leave each page as the paper's does,
//! whatever the bytes; and where an opening of the stored log and charts is not refused, as that opening has
//! it before it goes backward.

use super::{Arena, Outcome};
use crate::observe::{self, pages::Shown};
use crate::paper;
use crate::report;
use crate::store::{with_length, Answer, Store, Writes, PAGE, RIGHT};
use std::ops::Range;

impl Arena<'_> {
    /// The charts after these pages were redone alone, one after the other, compared in all stores.
    pub(super) fn redo_pages(&mut self, pages: &[u8]) -> Outcome<()> {
        let mut expected = self.paper.charts.clone();
        for number in pages {
            let page = &mut expected[bytes_of(*number)];
            if paper::redo_page(&self.paper.log, page, *number) != Ok(0) {
                return self.differs(format!("page {number} alone: paper refuses it"));
            }
        }
        // "It leaves that page as the opening has it before going backward."
        let forward = self.paper.forward();
        let refused = forward.as_ref().err().map(|refusal| refusal.answer());
        let mut met = Vec::new();
        if let Ok((_, copy)) = &forward {
            self.same_pages("paper", pages, copy, &expected)?;
            met.push(("paper", Shown::Copy));
        }
        for store in &self.others {
            match store.forward() {
                Some(shown) if shown.as_ref().err() != refused.as_ref() => {
                    return self.differs(format!("{} opens otherwise than paper", store.name()));
                }
                Some(Ok(copy)) => {
                    self.same_pages(store.name(), pages, &copy, &expected)?;
                    met.push((store.name(), Shown::Copy));
                }
                Some(Err(_)) => met.push((store.name(), Shown::Refusal)),
                None => {}
            }
            if let Some(charts) = self.redone(store.as_ref(), pages)? {
                self.same_charts(store.name(), &charts, &expected)?;
                met.push((store.name(), Shown::Pages));
            }
        }
        observe::pages::redone(self.cover, &self.paper, &met, pages, forward.as_ref().ok());
        Ok(())
    }

    /// One page of this number, with a log and a page of these lengths.
    pub(super) fn redo_lent(&mut self, log: usize, page: usize, number: u8) -> Outcome<Answer> {
        let log = with_length(&self.paper.log, log);
        let lent = with_length(&self.paper.charts[bytes_of(number % 32)], page);
        let mut expected = lent.clone();
        let answer = match paper::redo_page(&log, &mut expected, number) {
            Ok(value) => Answer { number: 0, value, writes: Writes::NONE },
            Err(refusal) => refusal.answer(),
        };
        if answer.number != 0 && expected != lent {
            return self.differs("paper refuses a page, and alters it");
        }
        for store in &self.others {
            let mut page = lent.clone();
            let Some(theirs) = store.redo_page(&log, &mut page, number) else {
                continue;
            };
            if theirs != answer || page != expected {
                let (ours, theirs) = (report::answer(answer), report::answer(theirs));
                let same = if page == expected { "the same" } else { "other" };
                let name = store.name();
                return self.differs(format!(
                    "page alone: paper answers {ours}, {name} {theirs} and leaves {same} bytes"
                ));
            }
        }
        observe::pages::lent(self.cover, log.len(), page, number, answer);
        Ok(answer)
    }

    /// The pages of a copy, each where it stands in the stored charts.
    fn same_pages(&self, name: &str, pages: &[u8], copy: &[u8], expected: &[u8]) -> Outcome<()> {
        let mut charts = self.paper.charts.clone();
        for page in pages {
            charts[bytes_of(*page)].copy_from_slice(&copy[bytes_of(*page)]);
        }
        self.same_charts(name, &charts, expected)
    }

    /// The stored charts with these pages redone alone by the store's own function. None if it has none.
    fn redone(&self, store: &dyn Store, pages: &[u8]) -> Outcome<Option<Vec<u8>>> {
        let mut charts = self.paper.charts.clone();
        for number in pages {
            let page = &mut charts[bytes_of(*number)];
            let Some(answer) = store.redo_page(&self.paper.log, page, *number) else {
                return Ok(None);
            };
            if answer != (Answer { number: 0, value: 0, writes: Writes::NONE }) {
                let text = report::answer(answer);
                return self.differs(format!("page {number} alone: {} answers {text}", store.name()));
            }
        }
        Ok(Some(charts))
    }

    fn same_charts(&self, name: &str, charts: &[u8], expected: &[u8]) -> Outcome<()> {
        let Some(at) = (0..RIGHT.charts).find(|at| charts[*at] != expected[*at]) else {
            return Ok(());
        };
        let place = format!("pages redone alone, page {}, byte {}", at / PAGE, at % PAGE);
        self.differs(format!("{place}: paper has {}, {name} {}", expected[at], charts[at]))
    }
}

/// Where the bytes of a page stand in the charts.
fn bytes_of(page: u8) -> Range<usize> {
    let at = usize::from(page) * PAGE;
    at..at + PAGE
}
