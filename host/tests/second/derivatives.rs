//! Whether a view is clear, decided exactly and in another way than the judge does: each form becomes a deterministic automaton
//! whose states are its derivatives, and the conditions are asked of products of those. No pairs of runs are followed.

use super::forms::{Form, View, many};
use std::collections::{BTreeMap, BTreeSet};
use std::rc::Rc;

/// A form with nothing and with sums as sets, so that only finitely many derivatives of one are different.
#[derive(Clone, Debug, PartialEq, Eq, PartialOrd, Ord)]
enum Reg {
    Nothing,
    Empty,
    One(u8, u8),
    Seq(Rc<Reg>, Rc<Reg>),
    Sum(BTreeSet<Reg>),
    Many(Rc<Reg>),
}

fn seq(f: Reg, g: Reg) -> Reg {
    match (f, g) {
        (Reg::Nothing, _) | (_, Reg::Nothing) => Reg::Nothing,
        (Reg::Empty, g) => g,
        (f, Reg::Empty) => f,
        // Nested to the right, always.
        (Reg::Seq(a, b), g) => Reg::Seq(a, Rc::new(seq((*b).clone(), g))),
        (f, g) => Reg::Seq(Rc::new(f), Rc::new(g)),
    }
}

fn sum(f: Reg, g: Reg) -> Reg {
    let mut all = BTreeSet::new();
    for part in [f, g] {
        match part {
            Reg::Nothing => {}
            Reg::Sum(parts) => all.extend(parts),
            part => {
                all.insert(part);
            }
        }
    }
    match all.len() {
        0 => Reg::Nothing,
        1 => all.pop_first().expect("there is one"),
        _ => Reg::Sum(all),
    }
}

impl Reg {
    fn of(form: &Form) -> Reg {
        match form {
            Form::Empty => Reg::Empty,
            Form::One(a, b) => Reg::One(*a, *b),
            Form::Seq(f, g) => seq(Reg::of(f), Reg::of(g)),
            Form::Or(f, g) => sum(Reg::of(f), Reg::of(g)),
            Form::Many(f) => Reg::Many(Rc::new(Reg::of(f))),
        }
    }

    fn is_nullable(&self) -> bool {
        match self {
            Reg::Nothing | Reg::One(..) => false,
            Reg::Empty | Reg::Many(_) => true,
            Reg::Seq(f, g) => f.is_nullable() && g.is_nullable(),
            Reg::Sum(parts) => parts.iter().any(Reg::is_nullable),
        }
    }

    /// What may follow the byte x in texts of this.
    fn derivative(&self, x: u8) -> Reg {
        match self {
            Reg::Nothing | Reg::Empty => Reg::Nothing,
            Reg::One(a, b) => {
                if *a <= x && x <= *b {
                    Reg::Empty
                } else {
                    Reg::Nothing
                }
            }
            Reg::Seq(f, g) => {
                let first = seq(f.derivative(x), (**g).clone());
                if f.is_nullable() { sum(first, g.derivative(x)) } else { first }
            }
            Reg::Sum(parts) => parts.iter().fold(Reg::Nothing, |all, part| sum(all, part.derivative(x))),
            Reg::Many(f) => seq(f.derivative(x), self.clone()),
        }
    }

    /// Bytes from which another range begins or behind which one ends.
    fn borders(&self, all: &mut BTreeSet<u8>) {
        match self {
            Reg::Nothing | Reg::Empty => {}
            Reg::One(a, b) => {
                all.insert(*a);
                all.extend(b.checked_add(1));
            }
            Reg::Seq(f, g) => {
                f.borders(all);
                g.borders(all);
            }
            Reg::Sum(parts) => parts.iter().for_each(|part| part.borders(all)),
            Reg::Many(f) => f.borders(all),
        }
    }
}

/// A deterministic automaton: state 0 is the start, and `next[state][class]` goes on.
struct Automaton {
    accepts: Vec<bool>,
    next: Vec<Vec<usize>>,
}

/// Two automata over the same classes of bytes, each class given by one of its bytes.
fn automata(f: &Form, g: &Form) -> (Automaton, Automaton) {
    let (f, g) = (Reg::of(f), Reg::of(g));
    let mut classes = BTreeSet::from([0]);
    f.borders(&mut classes);
    g.borders(&mut classes);
    let classes = Vec::from_iter(classes);
    (automaton(f, &classes), automaton(g, &classes))
}

fn automaton(start: Reg, classes: &[u8]) -> Automaton {
    let mut numbers = BTreeMap::from([(start.clone(), 0)]);
    let mut states = vec![start];
    let mut next = Vec::new();
    while let Some(state) = states.get(next.len()).cloned() {
        let mut row = Vec::new();
        for x in classes {
            let to = state.derivative(*x);
            row.push(*numbers.entry(to.clone()).or_insert_with(|| {
                states.push(to);
                states.len() - 1
            }));
        }
        next.push(row);
    }
    Automaton { accepts: states.iter().map(Reg::is_nullable).collect(), next }
}

/// All pairs of states that the same text leads to, from some pairs.
fn reached(f: &Automaton, g: &Automaton, from: impl IntoIterator<Item = (usize, usize)>) -> BTreeSet<(usize, usize)> {
    let mut all = BTreeSet::from_iter(from);
    let mut todo = Vec::from_iter(all.iter().copied());
    while let Some((p, q)) = todo.pop() {
        for pair in f.next[p].iter().copied().zip(g.next[q].iter().copied()) {
            if all.insert(pair) {
                todo.push(pair);
            }
        }
    }
    all
}

/// Whether some text leads from both states to accepting ones.
fn meet(f: &Automaton, p: usize, g: &Automaton, q: usize) -> bool {
    reached(f, g, [(p, q)]).into_iter().any(|(p, q)| f.accepts[p] && g.accepts[q])
}

/// No text is of both.
pub fn apart(f: &Form, g: &Form) -> bool {
    let (f, g) = automata(f, g);
    !meet(&f, 0, &g, 0)
}

/// No text can be cut into one of f and one of g in two ways. In two cuts, of which the second has x more in its first part, u
/// and u x are of f, and x v and v of g; so x, which isn't empty, leads from some accepting state of f to another one, and from
/// g's start to a state that has a text in common with the start. (Every state is reached from its automaton's start.)
pub fn cut_once(f: &Form, g: &Form) -> bool {
    let (f, g) = automata(f, g);
    let mut begun = BTreeSet::new();
    for p in (0..f.next.len()).filter(|p| f.accepts[*p]) {
        begun.extend(f.next[p].iter().copied().zip(g.next[0].iter().copied()));
    }
    let read = reached(&f, &g, begun).into_iter().filter(|(p, _)| f.accepts[*p]);
    let behind = BTreeSet::from_iter(read.map(|(_, q)| q));
    !behind.into_iter().any(|q| meet(&g, q, &g, 0))
}

/// Parts of f, none of them empty, are cut in one way only.
pub fn parts_once(f: &Form) -> bool {
    !Reg::of(f).is_nullable() && cut_once(f, &many(f.clone()))
}

pub fn is_member(f: &Form, text: &[u8]) -> bool {
    text.iter().fold(Reg::of(f), |state, x| state.derivative(*x)).is_nullable()
}

impl View {
    pub fn is_clear(&self) -> bool {
        match self {
            View::Copy(_) => true,
            View::Hide(f, _, d) => is_member(f, d),
            View::Then(k, l) => {
                k.is_clear() && l.is_clear() && cut_once(&k.sources(), &l.sources()) && cut_once(&k.looks(), &l.looks())
            }
            View::Swap(k, l) => {
                k.is_clear() && l.is_clear() && cut_once(&k.sources(), &l.sources()) && cut_once(&l.looks(), &k.looks())
            }
            View::Either(k, l) => {
                k.is_clear() && l.is_clear() && apart(&k.sources(), &l.sources()) && apart(&k.looks(), &l.looks())
            }
            View::Each(l) => l.is_clear() && parts_once(&l.sources()) && parts_once(&l.looks()),
        }
    }
}
