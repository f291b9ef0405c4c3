//! A search over short texts for one that a clear view can't have: found, the view is unclear; not found, nothing is known.

use super::forms::{Form, Text, View, many};
use std::collections::BTreeSet;

/// At most so many texts, each of at most so many bytes, are tried for each condition.
const TEXTS: usize = 300;
const LONGEST: usize = 7;

impl View {
    /// Whether some short text can be cut in two ways, or isn't where it should be.
    pub fn is_refuted(&self) -> bool {
        let texts = short_texts(self);
        let two_cuts = |f: &Form, g: &Form| texts.iter().any(|text| has_two_cuts(f, g, text));
        let shared = |f: &Form, g: &Form| texts.iter().any(|text| f.matches(text) && g.matches(text));
        let parts_twice = |f: &Form| f.matches(b"") || two_cuts(f, &many(f.clone()));
        match self {
            View::Copy(_) => false,
            View::Hide(f, _, d) => !f.matches(d),
            View::Then(k, l) | View::Swap(k, l) => {
                let (first, second) = if matches!(self, View::Swap(..)) { (l, k) } else { (k, l) };
                k.is_refuted()
                    || l.is_refuted()
                    || two_cuts(&k.sources(), &l.sources())
                    || two_cuts(&first.looks(), &second.looks())
            }
            View::Either(k, l) => {
                k.is_refuted() || l.is_refuted() || shared(&k.sources(), &l.sources()) || shared(&k.looks(), &l.looks())
            }
            View::Each(l) => l.is_refuted() || parts_twice(&l.sources()) || parts_twice(&l.looks()),
        }
    }
}

fn has_two_cuts(f: &Form, g: &Form, text: &[u8]) -> bool {
    f.ends(text, 0).into_iter().filter(|at| g.matches(&text[*at..])).count() > 1
}

/// All texts up to some length over the bytes at which the view's ranges begin.
fn short_texts(view: &View) -> Vec<Text> {
    let mut bytes = BTreeSet::new();
    first_bytes(&view.sources(), &mut bytes);
    first_bytes(&view.looks(), &mut bytes);
    let mut texts = vec![Text::new()];
    let mut longest = 0..1;
    while texts[longest.start].len() < LONGEST && texts.len() + longest.len() * bytes.len() <= TEXTS {
        let from = texts.len();
        for at in longest {
            texts.extend(bytes.iter().map(|x| [&texts[at][..], &[*x]].concat()).collect::<Vec<_>>());
        }
        longest = from..texts.len();
        if longest.is_empty() {
            break;
        }
    }
    texts
}

fn first_bytes(form: &Form, all: &mut BTreeSet<u8>) {
    match form {
        Form::Empty => {}
        Form::One(a, _) => {
            all.insert(*a);
        }
        Form::Seq(f, g) | Form::Or(f, g) => {
            first_bytes(f, all);
            first_bytes(g, all);
        }
        Form::Many(f) => first_bytes(f, all),
    }
}
