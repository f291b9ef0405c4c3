//! Views, and what they do with texts.

use crate::calls::{self, Judged, LONGEST_ROW, Made, Parsed};
use crate::memory::zeroes;
use crate::refusal::{Fault, Refusal};

/// Whether sources and looks of a view can be cut into their parts in one way only. Decided for all texts.
#[derive(Clone, Copy, Debug, PartialEq, Eq)]
pub enum Verdict {
    Plain,
    Unclear,
}

/// A view: how sources look, and how looks are put back.
#[derive(Clone, Debug, PartialEq, Eq)]
pub struct View {
    row: Vec<u8>,
    verdict: Verdict,
}

impl View {
    /// The view that the bytes of a row say. It is judged here, once.
    pub fn from_row(row: impl Into<Vec<u8>>) -> Result<View, Refusal> {
        let row = row.into();
        let mut work = zeroes(calls::judge_words(row.len())).ok_or(Refusal::NoMemory)?;
        match calls::judge(&row, &mut work) {
            Judged::Plain => Ok(View { row, verdict: Verdict::Plain }),
            Judged::Unclear => Ok(View { row, verdict: Verdict::Unclear }),
            Judged::NoView => Err(Refusal::NoSuch),
            Judged::Few => unreachable!("there are as many work words as judging wants"),
        }
    }

    /// The view that a text in notation says.
    pub fn parse(text: &[u8]) -> Result<View, Refusal> {
        let mut row = [0; LONGEST_ROW];
        let mut message = [0; 256];
        match calls::parse(text, &mut row, &mut message) {
            Parsed::Done(len) => View::from_row(&row[..len]),
            Parsed::NoView { line, column, told } => {
                let message = String::from_utf8_lossy(&message[..told]).into_owned();
                Err(Refusal::Notation(Fault { line, column, message }))
            }
            Parsed::Full => unreachable!("no row is longer than what was lent for it"),
        }
    }

    /// The bytes of the view.
    pub fn row(&self) -> &[u8] {
        &self.row
    }

    /// Whether the view is clear. Only clear views show, make and put.
    pub fn judge(&self) -> Verdict {
        self.verdict
    }

    /// How the source looks.
    pub fn show(&self, source: &[u8]) -> Result<Vec<u8>, Refusal> {
        let longest = self.longest(source.len(), 0);
        self.write(source.len(), longest, |out, work| calls::show(&self.row, source, out, work))
    }

    /// The source that is made from a look alone.
    pub fn make(&self, look: &[u8]) -> Result<Vec<u8>, Refusal> {
        let longest = self.longest(look.len(), 0);
        self.write(look.len(), longest, |out, work| calls::make(&self.row, look, out, work))
    }

    /// The source that the look gives where it is put back into a source.
    pub fn put(&self, source: &[u8], look: &[u8]) -> Result<Vec<u8>, Refusal> {
        let texts = source.len().checked_add(look.len()).ok_or(Refusal::NoMemory)?;
        let longest = self.longest(look.len(), source.len());
        self.write(texts, longest, |out, work| calls::put(&self.row, source, look, out, work))
    }

    /// No result is longer than this. It has bytes of the text that is gone through and of what is kept, and texts of hide: all
    /// of those stand in the row, and each can be given once, or, under each, once for every part; a part isn't empty.
    fn longest(&self, text: usize, kept: usize) -> usize {
        let hidden = self.row.len().saturating_mul(text.max(1));
        text.saturating_add(kept).saturating_add(hidden)
    }

    /// Lends the call its memory: the work words that it wants, and room for a result, which is rarely as long as the longest;
    /// there is more room on a next try if the result wants it.
    fn write(&self, texts: usize, longest: usize, call: impl Fn(&mut [u8], &mut [u32]) -> Made) -> Result<Vec<u8>, Refusal> {
        if self.verdict == Verdict::Unclear {
            return Err(Refusal::Muddy);
        }
        let words = calls::words(self.row.len(), texts).ok_or(Refusal::NoMemory)?;
        let mut work = zeroes(words).ok_or(Refusal::NoMemory)?;
        let mut room = longest.min(texts.saturating_mul(2).saturating_add(1 << 16));
        loop {
            let mut out = zeroes(room).ok_or(Refusal::NoMemory)?;
            match call(&mut out, &mut work) {
                Made::Done(len) => {
                    out.truncate(len);
                    out.shrink_to_fit();
                    return Ok(out);
                }
                Made::Muddy => return Err(Refusal::Muddy),
                Made::NoSuch => return Err(Refusal::NoSuch),
                Made::NoSource => return Err(Refusal::NoSource),
                Made::NoLook => return Err(Refusal::NoLook),
                Made::Full if room < longest => room = longest.min(room.saturating_mul(8)),
                Made::Full => unreachable!("no result is longer than {longest} bytes"),
                Made::Small => unreachable!("there are as many work words as the call wants"),
            }
        }
    }
}
