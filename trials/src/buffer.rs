//! A buffer as it is lent to a call, with guards before and after it.

/// Guard items on either side. Odd, so that lent bytes start at an odd address.
pub const GUARD: usize = 13;

/// What a buffer is a list of.
pub trait Item: Copy {
    /// What stands in a guard.
    const PATTERN: Self;
}

impl Item for u8 {
    const PATTERN: u8 = 0xA5;
}

impl Item for u32 {
    const PATTERN: u32 = 0xA5A5_A5A5;
}

pub type Bytes = Buffer<u8>;
pub type Words = Buffer<u32>;

/// With a guard of 0 it is a heap allocation of exactly the lent length.
#[derive(Clone, Debug, PartialEq, Eq)]
pub struct Buffer<T> {
    whole: Box<[T]>,
    guard: usize,
}

impl<T: Item> Buffer<T> {
    pub fn guarded(content: &[T], guard: usize) -> Buffer<T> {
        let mut whole = Vec::with_capacity(content.len() + 2 * guard);
        whole.resize(guard, T::PATTERN);
        whole.extend_from_slice(content);
        whole.resize(content.len() + 2 * guard, T::PATTERN);
        Buffer {
            whole: whole.into_boxed_slice(),
            guard,
        }
    }

    pub fn lent(&self) -> &[T] {
        &self.whole[self.guard..self.whole.len() - self.guard]
    }

    pub fn lent_mut(&mut self) -> &mut [T] {
        let end = self.whole.len() - self.guard;
        &mut self.whole[self.guard..end]
    }

    /// The lent part with its guards.
    pub fn whole_mut(&mut self) -> &mut [T] {
        &mut self.whole
    }

    /// The same guards around other content.
    pub fn replace(&mut self, content: &[T]) {
        *self = Buffer::guarded(content, self.guard);
    }

    pub fn set_guard(&mut self, guard: usize) {
        *self = Buffer::guarded(self.lent(), guard);
    }
}

impl<T: Item> From<Vec<T>> for Buffer<T> {
    fn from(content: Vec<T>) -> Buffer<T> {
        Buffer::guarded(&content, GUARD)
    }
}
