//! Memory that is lent to the archive: it lies between guards, which have to stay, at any distance from a boundary.

/// What bytes and words are before anything is written.
pub const BYTE: u8 = 0xa5;
pub const WORD: u32 = 0xa5a5_a5a5;

/// Guards on each side at least.
const GUARDS: usize = 64;

/// Items of one value, the guard's, but for what is lent and written.
pub struct Guarded<T> {
    all: Vec<T>,
    guard: T,
    start: usize,
    end: usize,
}

impl<T: Copy + PartialEq> Guarded<T> {
    /// Lends a copy of these, with so many guards more in front of them.
    pub fn holding(guard: T, content: &[T], more: usize) -> Self {
        let mut all = vec![guard; GUARDS + more];
        let start = all.len();
        all.extend(content);
        let end = all.len();
        all.extend([guard; GUARDS]);
        Guarded { all, guard, start, end }
    }

    /// Lends so many items of the guard's own value.
    pub fn fresh(guard: T, length: usize, more: usize) -> Self {
        Guarded::holding(guard, &vec![guard; length], more)
    }

    pub fn lent(&mut self) -> &mut [T] {
        &mut self.all[self.start..self.end]
    }

    pub fn content(&self) -> &[T] {
        &self.all[self.start..self.end]
    }

    /// Whether no guard has changed.
    pub fn intact(&self) -> bool {
        let around = self.all[..self.start].iter().chain(&self.all[self.end..]);
        around.into_iter().all(|item| *item == self.guard)
    }
}

/// Where two slices of one length first differ.
pub fn difference<T: PartialEq>(one: &[T], other: &[T]) -> Option<usize> {
    one.iter().zip(other).position(|(one, other)| one != other)
}
