//! The kernel's cells with one value or none, changed through a shared reference.

use std::cell::Cell;

/// A cell whose value need not be `Copy`: it is taken out while it is looked at.
pub struct MapCell<T> {
    value: Cell<Option<T>>,
}

impl<T> MapCell<T> {
    pub const fn empty() -> Self {
        MapCell {
            value: Cell::new(None),
        }
    }

    pub const fn new(value: T) -> Self {
        MapCell {
            value: Cell::new(Some(value)),
        }
    }

    pub fn is_some(&self) -> bool {
        self.map(|_| ()).is_some()
    }

    pub fn is_none(&self) -> bool {
        !self.is_some()
    }

    pub fn take(&self) -> Option<T> {
        self.value.take()
    }

    /// Puts a value in and gives back the one that was there.
    pub fn replace(&self, value: T) -> Option<T> {
        self.value.replace(Some(value))
    }

    pub fn map<R>(&self, look: impl FnOnce(&mut T) -> R) -> Option<R> {
        let mut value = self.take()?;
        let result = look(&mut value);
        self.replace(value);
        Some(result)
    }
}

/// A cell for a small value that may be absent, such as a client.
pub struct OptionalCell<T> {
    value: Cell<Option<T>>,
}

impl<T> OptionalCell<T> {
    pub const fn empty() -> Self {
        OptionalCell {
            value: Cell::new(None),
        }
    }

    pub fn set(&self, value: T) {
        self.value.set(Some(value));
    }

    pub fn clear(&self) {
        self.value.set(None);
    }

    pub fn take(&self) -> Option<T> {
        self.value.take()
    }
}

impl<T: Copy> OptionalCell<T> {
    pub fn is_some(&self) -> bool {
        self.value.get().is_some()
    }

    pub fn map<R>(&self, look: impl FnOnce(T) -> R) -> Option<R> {
        self.value.get().map(look)
    }
}

#[cfg(test)]
mod tests {
    use super::{MapCell, OptionalCell};

    #[test]
    fn a_map_cell_keeps_its_value_over_a_look() {
        let cell = MapCell::new(vec![1]);
        assert_eq!(cell.map(|v| v.len()), Some(1));
        assert_eq!(cell.replace(vec![2]), Some(vec![1]));
        assert_eq!(cell.take(), Some(vec![2]));
        assert!(cell.is_none());
    }

    #[test]
    fn an_optional_cell_can_be_cleared() {
        let cell = OptionalCell::empty();
        cell.set(3);
        assert_eq!(cell.map(|v| v + 1), Some(4));
        cell.clear();
        assert!(!cell.is_some());
        assert_eq!(cell.take(), None);
    }
}
