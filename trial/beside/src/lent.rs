//! A buffer to lend, filled so that what is written shows.

/// How much of the fill is kept behind a lent buffer: a write past its end shows too.
const BEHIND: usize = 32;

pub struct Lent<T> {
    items: Vec<T>,
    fill: T,
}

impl<T: Copy + PartialEq> Lent<T> {
    pub fn filled_with(fill: T) -> Self {
        Self {
            items: vec![],
            fill,
        }
    }

    /// So many items, filled anew.
    pub fn lend(&mut self, count: usize) -> &mut [T] {
        self.items.clear();
        self.items.resize(count + BEHIND, self.fill);
        &mut self.items[..count]
    }

    /// The first items, as they are since they were lent.
    pub fn first(&self, count: usize) -> &[T] {
        &self.items[..count]
    }

    /// Whether all items from here on are as they were filled.
    pub fn is_kept_from(&self, start: usize) -> bool {
        self.items[start..].iter().all(|item| *item == self.fill)
    }
}
