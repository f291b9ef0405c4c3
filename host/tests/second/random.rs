//! Random views and texts, the same for the same seed.

use super::forms::{Form, Text, View, each, either, hide, many, or, seq, swap, then};

/// SplitMix64.
pub struct Random(u64);

impl Random {
    pub fn new(seed: u64) -> Random {
        Random(seed)
    }

    fn next(&mut self) -> u64 {
        self.0 = self.0.wrapping_add(0x9e37_79b9_7f4a_7c15);
        let mut z = self.0;
        z = (z ^ (z >> 30)).wrapping_mul(0xbf58_476d_1ce4_e5b9);
        z = (z ^ (z >> 27)).wrapping_mul(0x94d0_49bb_1331_11eb);
        z ^ (z >> 31)
    }

    pub fn below(&mut self, n: usize) -> usize {
        (self.next() % n as u64) as usize
    }

    /// True once in n times.
    pub fn once_in(&mut self, n: usize) -> bool {
        self.below(n) == 0
    }

    fn pick<T: Copy>(&mut self, from: &[T]) -> T {
        from[self.below(from.len())]
    }

    /// Few bytes, so that forms overlap; the two ends of the range are among them.
    fn byte(&mut self) -> u8 {
        self.pick(b"aaabbbccd\x00\xff")
    }

    fn range(&mut self) -> Form {
        let (a, b) = (self.byte(), if self.once_in(3) { self.byte() } else { 0 });
        match b {
            0 => Form::One(a, a),
            b => Form::One(a.min(b), a.max(b)),
        }
    }

    /// A form of at most so many levels.
    pub fn form(&mut self, depth: usize) -> Form {
        match self.below(if depth == 0 { 6 } else { 14 }) {
            0 => Form::Empty,
            1..=5 => self.range(),
            6..=8 => seq(self.form(depth - 1), self.form(depth - 1)),
            9..=10 => or(self.form(depth - 1), self.form(depth - 1)),
            // A body that the empty text is of.
            11 => many(or(Form::Empty, self.form(depth - 1))),
            _ => many(self.form(depth - 1)),
        }
    }

    fn short_text(&mut self) -> Text {
        let len = self.pick(&[0, 0, 1, 1, 2]);
        (0..len).map(|_| self.byte()).collect()
    }

    fn hidden(&mut self, depth: usize) -> View {
        let f = self.form(depth);
        // Mostly a text for a new source that is of the form, as the view is unclear otherwise.
        let d = if self.once_in(6) { self.short_text() } else { self.text_of(&f, 4) };
        let v = self.short_text();
        hide(f, &v, &d)
    }

    /// A view of at most so many levels. Views that are put together blindly are nearly all unclear, so mostly a few are tried
    /// for a clear one.
    pub fn view(&mut self, depth: usize) -> View {
        let mut view = self.any_view(depth);
        for _ in 0..self.pick(&[0, 0, 0, 4]) {
            if view.is_clear() {
                break;
            }
            view = self.any_view(depth);
        }
        view
    }

    fn any_view(&mut self, depth: usize) -> View {
        if depth == 0 || self.once_in(6) {
            return if self.once_in(2) { View::Copy(self.form(2)) } else { self.hidden(2) };
        }
        match self.below(10) {
            0..=2 => then(self.view(depth - 1), self.view(depth - 1)),
            3..=5 => swap(self.view(depth - 1), self.view(depth - 1)),
            6..=7 => either(self.view(depth - 1), self.view(depth - 1)),
            _ => each(self.view(depth - 1)),
        }
    }

    /// A text of a form; many has few parts, and fewer the more are there already.
    pub fn text_of(&mut self, form: &Form, longest: usize) -> Text {
        let mut text = Text::new();
        self.write_text(form, longest, &mut text);
        text
    }

    fn write_text(&mut self, form: &Form, longest: usize, text: &mut Text) {
        match form {
            Form::Empty => {}
            Form::One(a, b) => {
                let between = u8::try_from(self.below(usize::from(b - a) + 1)).expect("a range of bytes");
                let ends = [*a, *b, a + between];
                text.push(self.pick(&ends));
            }
            Form::Seq(f, g) => {
                self.write_text(f, longest, text);
                self.write_text(g, longest, text);
            }
            Form::Or(f, g) => {
                let side = if self.once_in(2) { f } else { g };
                self.write_text(side, longest, text);
            }
            Form::Many(f) => {
                while text.len() < longest && !self.once_in(3.max(longest / 8)) {
                    self.write_text(f, longest, text);
                }
            }
        }
    }

    /// A text with a byte changed, put in or taken out.
    pub fn change(&mut self, text: &mut Text) {
        let at = self.below(text.len() + 1);
        let byte = if self.once_in(8) { self.next() as u8 } else { self.byte() };
        match self.below(3) {
            0 if at < text.len() => text[at] = byte,
            1 if at < text.len() => {
                text.remove(at);
            }
            _ => text.insert(at, byte),
        }
    }
}
