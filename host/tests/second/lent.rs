//! Memory that is lent to a call, with guards on both sides.

const GUARDS: usize = 16;

pub struct Lent<T> {
    all: Vec<T>,
    guard: T,
}

impl<T: Copy + PartialEq> Lent<T> {
    pub fn new(contents: &[T], guard: T) -> Lent<T> {
        let guards = vec![guard; GUARDS];
        Lent { all: [&guards, contents, &guards].concat(), guard }
    }

    pub fn contents(&self) -> &[T] {
        &self.all[GUARDS..self.all.len() - GUARDS]
    }

    pub fn contents_mut(&mut self) -> &mut [T] {
        let end = self.all.len() - GUARDS;
        &mut self.all[GUARDS..end]
    }

    /// Whether nothing was written outside of the contents.
    pub fn is_guarded(&self) -> bool {
        let end = self.all.len() - GUARDS;
        self.all[..GUARDS].iter().chain(&self.all[end..]).all(|x| *x == self.guard)
    }
}
