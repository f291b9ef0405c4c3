//! Forms and views as they are defined, and their rows of bytes.

pub type Text = Vec<u8>;

#[derive(Clone, Debug, PartialEq, Eq, PartialOrd, Ord)]
pub enum Form {
    Empty,
    One(u8, u8),
    Seq(Box<Form>, Box<Form>),
    Or(Box<Form>, Box<Form>),
    Many(Box<Form>),
}

#[derive(Clone, Debug, PartialEq, Eq)]
pub enum View {
    Copy(Form),
    /// The sources' form, the text that is shown, and the text for a new source.
    Hide(Form, Text, Text),
    Then(Box<View>, Box<View>),
    Swap(Box<View>, Box<View>),
    Either(Box<View>, Box<View>),
    Each(Box<View>),
}

pub fn seq(f: Form, g: Form) -> Form {
    Form::Seq(Box::new(f), Box::new(g))
}

pub fn or(f: Form, g: Form) -> Form {
    Form::Or(Box::new(f), Box::new(g))
}

pub fn many(f: Form) -> Form {
    Form::Many(Box::new(f))
}

/// The form of one text alone.
pub fn exactly(text: &[u8]) -> Form {
    match text {
        [] => Form::Empty,
        [x, rest @ ..] => seq(Form::One(*x, *x), exactly(rest)),
    }
}

pub fn then(k: View, l: View) -> View {
    View::Then(Box::new(k), Box::new(l))
}

pub fn swap(k: View, l: View) -> View {
    View::Swap(Box::new(k), Box::new(l))
}

pub fn either(k: View, l: View) -> View {
    View::Either(Box::new(k), Box::new(l))
}

pub fn each(l: View) -> View {
    View::Each(Box::new(l))
}

pub fn hide(f: Form, v: &[u8], d: &[u8]) -> View {
    View::Hide(f, v.to_vec(), d.to_vec())
}

impl Form {
    fn write_row(&self, row: &mut Vec<u8>) {
        match self {
            Form::Empty => row.push(0),
            Form::One(a, b) => row.extend([1, *a, *b]),
            Form::Seq(f, g) => {
                row.push(2);
                f.write_row(row);
                g.write_row(row);
            }
            Form::Or(f, g) => {
                row.push(3);
                f.write_row(row);
                g.write_row(row);
            }
            Form::Many(f) => {
                row.push(4);
                f.write_row(row);
            }
        }
    }

    /// The form at the front of the bytes, and the bytes behind it.
    fn read(row: &[u8]) -> Option<(Form, &[u8])> {
        let (tag, rest) = row.split_first()?;
        match tag {
            0 => Some((Form::Empty, rest)),
            1 => match rest {
                [a, b, rest @ ..] if a <= b => Some((Form::One(*a, *b), rest)),
                _ => None,
            },
            2 | 3 => {
                let (f, rest) = Form::read(rest)?;
                let (g, rest) = Form::read(rest)?;
                Some((if *tag == 2 { seq(f, g) } else { or(f, g) }, rest))
            }
            4 => {
                let (f, rest) = Form::read(rest)?;
                Some((many(f), rest))
            }
            _ => None,
        }
    }
}

impl View {
    pub fn row(&self) -> Vec<u8> {
        let mut row = Vec::new();
        self.write_row(&mut row);
        row
    }

    fn write_row(&self, row: &mut Vec<u8>) {
        match self {
            View::Copy(f) => {
                row.push(10);
                f.write_row(row);
            }
            View::Hide(f, v, d) => {
                row.push(11);
                f.write_row(row);
                for text in [v, d] {
                    row.push(u8::try_from(text.len()).expect("a text of hide is short"));
                    row.extend(text);
                }
            }
            View::Then(k, l) | View::Swap(k, l) | View::Either(k, l) => {
                row.push(match self {
                    View::Then(..) => 12,
                    View::Swap(..) => 13,
                    _ => 14,
                });
                k.write_row(row);
                l.write_row(row);
            }
            View::Each(l) => {
                row.push(15);
                l.write_row(row);
            }
        }
    }

    /// The view that a row says: all of its bytes, which are at most 1,024.
    pub fn from_row(row: &[u8]) -> Option<View> {
        match View::read(row)? {
            (view, []) if row.len() <= 1024 => Some(view),
            _ => None,
        }
    }

    fn read(row: &[u8]) -> Option<(View, &[u8])> {
        let (tag, rest) = row.split_first()?;
        match tag {
            10 => {
                let (f, rest) = Form::read(rest)?;
                Some((View::Copy(f), rest))
            }
            11 => {
                let (f, rest) = Form::read(rest)?;
                let (v, rest) = read_text(rest)?;
                let (d, rest) = read_text(rest)?;
                Some((hide(f, v, d), rest))
            }
            12..=14 => {
                let (k, rest) = View::read(rest)?;
                let (l, rest) = View::read(rest)?;
                let view = match tag {
                    12 => then(k, l),
                    13 => swap(k, l),
                    _ => either(k, l),
                };
                Some((view, rest))
            }
            15 => {
                let (l, rest) = View::read(rest)?;
                Some((each(l), rest))
            }
            _ => None,
        }
    }

    /// The form of the sources.
    pub fn sources(&self) -> Form {
        match self {
            View::Copy(f) | View::Hide(f, ..) => f.clone(),
            View::Then(k, l) | View::Swap(k, l) => seq(k.sources(), l.sources()),
            View::Either(k, l) => or(k.sources(), l.sources()),
            View::Each(l) => many(l.sources()),
        }
    }

    /// The form of the looks: those of swap stand in the other order.
    pub fn looks(&self) -> Form {
        match self {
            View::Copy(f) => f.clone(),
            View::Hide(_, v, _) => exactly(v),
            View::Then(k, l) => seq(k.looks(), l.looks()),
            View::Swap(k, l) => seq(l.looks(), k.looks()),
            View::Either(k, l) => or(k.looks(), l.looks()),
            View::Each(l) => many(l.looks()),
        }
    }
}

fn read_text(row: &[u8]) -> Option<(&[u8], &[u8])> {
    let (len, rest) = row.split_first()?;
    rest.split_at_checked(usize::from(*len))
}
