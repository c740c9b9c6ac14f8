//! A slice that is passed to the library, in an allocation of its own.

const GUARD: usize = 8;

pub struct Block<T> {
    all: Vec<T>,
    /// What has to be before and behind the slice.
    before: Vec<T>,
    behind: Vec<T>,
    length: usize,
}

impl<T: Copy + PartialEq + From<u32>> Block<T> {
    /// The first `length` of the content. If guarded, guard words are before it, the rest of the content and guard words behind it.
    pub fn of(content: &[T], length: usize, guarded: bool) -> Self {
        let guard = |first: u32| (0..GUARD as u32).map(move |i| T::from(first ^ i));
        let (mut before, mut behind) = (Vec::new(), Vec::new());
        if guarded {
            before.extend(guard(0x5afe_0000));
            behind.extend_from_slice(&content[length..]);
            behind.extend(guard(0xcafe_0000));
        }
        let mut all = Vec::with_capacity(before.len() + length + behind.len());
        all.extend_from_slice(&before);
        all.extend_from_slice(&content[..length]);
        all.extend_from_slice(&behind);
        Block {
            all,
            before,
            behind,
            length,
        }
    }
}

impl<T: Copy + PartialEq> Block<T> {
    /// Elements that have no content; it may not be asked for.
    pub fn undefined(length: usize) -> Self {
        Block {
            all: Vec::with_capacity(length),
            before: Vec::new(),
            behind: Vec::new(),
            length,
        }
    }

    /// Pointer and length, as C takes them.
    pub fn slice(&mut self) -> (*mut T, usize) {
        let first = self.before.len();
        (self.all.as_mut_ptr().wrapping_add(first), self.length)
    }

    pub fn lent(&self) -> &[T] {
        &self.all[self.before.len()..][..self.length]
    }

    /// Whether nothing was written outside of the slice.
    pub fn sound(&self) -> bool {
        self.all.starts_with(&self.before) && self.all.ends_with(&self.behind)
    }
}
