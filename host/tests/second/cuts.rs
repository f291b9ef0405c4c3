//! Membership, show, make and put by trying all cuts: each gives the SET of what the definition allows. From a place of a text on,
//! a function gives all places where a part can end, with all that it can turn into.
//!
//! Parts under many and each that are empty are not tried: those of many add nothing, and no clear view has them under each.

use super::forms::{Form, Text, View, many};
use std::collections::BTreeSet;

type Ends = BTreeSet<usize>;
/// Ends, with what the part turns into.
type Turned = BTreeSet<(usize, Text)>;
/// Ends in the look and in the source, with the new source.
type Put = BTreeSet<(usize, usize, Text)>;

impl Form {
    pub fn matches(&self, text: &[u8]) -> bool {
        self.ends(text, 0).contains(&text.len())
    }

    /// All places where a part that begins at `from` can end.
    pub fn ends(&self, text: &[u8], from: usize) -> Ends {
        match self {
            Form::Empty => Ends::from([from]),
            Form::One(a, b) => match text.get(from) {
                Some(x) if a <= x && x <= b => Ends::from([from + 1]),
                _ => Ends::new(),
            },
            Form::Seq(f, g) => f.ends(text, from).into_iter().flat_map(|mid| g.ends(text, mid)).collect(),
            Form::Or(f, g) => &f.ends(text, from) | &g.ends(text, from),
            Form::Many(f) => {
                closure((), from, |(), at| f.ends(text, at).into_iter().filter(|end| *end > at).map(|end| ((), end)).collect())
                    .into_iter()
                    .map(|((), end)| end)
                    .collect()
            }
        }
    }
}

impl View {
    /// All looks of a source.
    pub fn shows(&self, source: &[u8]) -> BTreeSet<Text> {
        whole(self.shown(source, 0), source.len())
    }

    /// All sources that are made from a look.
    pub fn makes(&self, look: &[u8]) -> BTreeSet<Text> {
        whole(self.made(look, 0), look.len())
    }

    /// All sources that a look put back into a source gives.
    pub fn puts(&self, look: &[u8], source: &[u8]) -> BTreeSet<Text> {
        let put = self.put(look, 0, source, 0).into_iter();
        put.filter(|(end, end_source, _)| *end == look.len() && *end_source == source.len()).map(|(.., new)| new).collect()
    }

    fn shown(&self, text: &[u8], from: usize) -> Turned {
        match self {
            View::Copy(f) => f.ends(text, from).into_iter().map(|end| (end, text[from..end].to_vec())).collect(),
            View::Hide(f, v, _) => f.ends(text, from).into_iter().map(|end| (end, v.clone())).collect(),
            View::Then(k, l) => two(k.shown(text, from), |mid| l.shown(text, mid), |first, second| [first, second].concat()),
            View::Swap(k, l) => two(k.shown(text, from), |mid| l.shown(text, mid), |first, second| [second, first].concat()),
            View::Either(k, l) => &k.shown(text, from) | &l.shown(text, from),
            View::Each(l) => any_number(from, |at| l.shown(text, at)),
        }
    }

    fn made(&self, text: &[u8], from: usize) -> Turned {
        match self {
            View::Copy(f) => f.ends(text, from).into_iter().map(|end| (end, text[from..end].to_vec())).collect(),
            View::Hide(_, v, d) => match text[from..].starts_with(v) {
                true => Turned::from([(from + v.len(), d.clone())]),
                false => Turned::new(),
            },
            View::Then(k, l) => two(k.made(text, from), |mid| l.made(text, mid), |first, second| [first, second].concat()),
            // The look of the second part comes first.
            View::Swap(k, l) => two(l.made(text, from), |mid| k.made(text, mid), |first, second| [second, first].concat()),
            View::Either(k, l) => &k.made(text, from) | &l.made(text, from),
            View::Each(l) => any_number(from, |at| l.made(text, at)),
        }
    }

    /// From a place of the look and one of the source on.
    fn put(&self, look: &[u8], at: usize, source: &[u8], from: usize) -> Put {
        let mut all = Put::new();
        match self {
            View::Copy(f) => {
                for end in f.ends(look, at) {
                    all.extend(f.ends(source, from).into_iter().map(|old| (end, old, look[at..end].to_vec())));
                }
            }
            View::Hide(f, v, _) => {
                if look[at..].starts_with(v) {
                    let ends = f.ends(source, from).into_iter();
                    all.extend(ends.map(|old| (at + v.len(), old, source[from..old].to_vec())));
                }
            }
            View::Then(k, l) => {
                for (mid, old, first) in k.put(look, at, source, from) {
                    let second = l.put(look, mid, source, old).into_iter();
                    all.extend(second.map(|(end, old, second)| (end, old, [&first[..], &second].concat())));
                }
            }
            View::Swap(k, l) => {
                for old_mid in k.sources().ends(source, from) {
                    for (mid, old, second) in l.put(look, at, source, old_mid) {
                        let first = k.put(look, mid, source, from).into_iter().filter(|(_, end, _)| *end == old_mid);
                        all.extend(first.map(|(end, _, first)| (end, old, [&first[..], &second].concat())));
                    }
                }
            }
            View::Either(k, l) => {
                all.extend(k.put(look, at, source, from));
                all.extend(l.put(look, at, source, from));
                // A look of the other one than the source's: it is made anew.
                for (made_by, other) in [(k, l), (l, k)] {
                    for (end, new) in made_by.made(look, at) {
                        let ends = other.sources().ends(source, from).into_iter();
                        all.extend(ends.map(|old| (end, old, new.clone())));
                    }
                }
            }
            View::Each(l) => {
                // Parts go together in order, as long as both have one.
                let both = closure((from, Text::new()), at, |(old, new), mid| {
                    let parts = l.put(look, mid, source, *old).into_iter().filter(|(end, ..)| *end > mid);
                    parts.map(|(end, old, part)| ((old, [&new[..], &part].concat()), end)).collect()
                });
                let old_parts = many(l.sources());
                for ((old, new), mid) in both {
                    // The source has no more parts: those of the look are made.
                    for (end, rest) in any_number(mid, |at| l.made(look, at)) {
                        all.insert((end, old, [&new[..], &rest].concat()));
                    }
                    // The look has no more parts: those of the source fall away.
                    all.extend(old_parts.ends(source, old).into_iter().map(|end| (mid, end, new.clone())));
                }
            }
        }
        all
    }
}

fn whole(all: Turned, len: usize) -> BTreeSet<Text> {
    all.into_iter().filter(|(end, _)| *end == len).map(|(_, text)| text).collect()
}

/// Two parts, one after the other in the text.
fn two(firsts: Turned, second: impl Fn(usize) -> Turned, join: impl Fn(&[u8], &[u8]) -> Text) -> Turned {
    let mut all = Turned::new();
    for (mid, first) in firsts {
        all.extend(second(mid).into_iter().map(|(end, second)| (end, join(&first, &second))));
    }
    all
}

/// Any number of parts, none of them empty.
fn any_number(from: usize, part: impl Fn(usize) -> Turned) -> Turned {
    let all = closure(Text::new(), from, |before, at| {
        let parts = part(at).into_iter().filter(|(end, _)| *end > at);
        parts.map(|(end, text)| ([&before[..], &text].concat(), end)).collect()
    });
    all.into_iter().map(|(text, end)| (end, text)).collect()
}

/// Everything that steps lead to, with the place.
fn closure<T: Ord + Clone>(start: T, from: usize, step: impl Fn(&T, usize) -> Vec<(T, usize)>) -> BTreeSet<(T, usize)> {
    let mut all = BTreeSet::from([(start, from)]);
    let mut todo = Vec::from_iter(all.clone());
    while let Some((value, at)) = todo.pop() {
        for next in step(&value, at) {
            if all.insert(next.clone()) {
                todo.push(next);
            }
        }
    }
    all
}
