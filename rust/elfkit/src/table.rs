//! A table of items, and going over it.

use std::fmt;
use std::iter::FusedIterator;
use std::marker::PhantomData;

use crate::items::{Form, Item};

/// The items of a section, where they are in the image. It may outlive the
/// [`Image`](crate::Image), and lives as long as the bytes that the image was opened over.
pub struct Table<'data, T> {
    bytes: &'data [u8],
    form: Form,
    item: PhantomData<fn() -> T>,
}

impl<T> Clone for Table<'_, T> {
    fn clone(&self) -> Self {
        *self
    }
}

impl<T> Copy for Table<'_, T> {}

impl<'data, T: Item> Table<'data, T> {
    /// Bytes, whose number is a multiple of the size of an item.
    pub(crate) fn new(bytes: &'data [u8], form: Form) -> Table<'data, T> {
        Table { bytes, form, item: PhantomData }
    }

    /// The number of items.
    pub fn len(&self) -> usize {
        self.bytes.len().checked_div(T::size(self.form.class)).unwrap_or(0)
    }

    /// Whether there is no item.
    pub fn is_empty(&self) -> bool {
        self.bytes.is_empty()
    }

    /// The item at an index, or nothing from [`Table::len`] on.
    pub fn get(&self, i: usize) -> Option<T> {
        let at = i.checked_mul(T::size(self.form.class))?;
        T::first(self.bytes.get(at..)?, self.form).map(|(item, _)| item)
    }

    /// The items in their order.
    pub fn iter(&self) -> Items<'data, T> {
        Items { bytes: self.bytes, form: self.form, item: PhantomData }
    }

    /// The bytes of the items, as they are in the image.
    pub fn bytes(&self) -> &'data [u8] {
        self.bytes
    }

    /// The class and the byte order of the image.
    pub fn form(&self) -> Form {
        self.form
    }
}

impl<T: Item> fmt::Debug for Table<'_, T> {
    fn fmt(&self, f: &mut fmt::Formatter<'_>) -> fmt::Result {
        f.debug_list().entries(self.iter()).finish()
    }
}

impl<'data, T: Item> IntoIterator for Table<'data, T> {
    type Item = T;
    type IntoIter = Items<'data, T>;

    fn into_iter(self) -> Items<'data, T> {
        self.iter()
    }
}

impl<'data, T: Item> IntoIterator for &Table<'data, T> {
    type Item = T;
    type IntoIter = Items<'data, T>;

    fn into_iter(self) -> Items<'data, T> {
        self.iter()
    }
}

/// Goes over the items of a [`Table`].
pub struct Items<'data, T> {
    bytes: &'data [u8],
    form: Form,
    item: PhantomData<fn() -> T>,
}

impl<T> Clone for Items<'_, T> {
    fn clone(&self) -> Self {
        Items { bytes: self.bytes, form: self.form, item: PhantomData }
    }
}

impl<T> fmt::Debug for Items<'_, T> {
    fn fmt(&self, f: &mut fmt::Formatter<'_>) -> fmt::Result {
        f.debug_struct("Items").field("form", &self.form).finish_non_exhaustive()
    }
}

impl<T: Item> Iterator for Items<'_, T> {
    type Item = T;

    #[inline]
    fn next(&mut self) -> Option<T> {
        let (item, behind) = T::first(self.bytes, self.form)?;
        self.bytes = behind;
        Some(item)
    }

    fn size_hint(&self) -> (usize, Option<usize>) {
        let left = self.bytes.len().checked_div(T::size(self.form.class)).unwrap_or(0);
        (left, Some(left))
    }

    #[inline]
    fn nth(&mut self, n: usize) -> Option<T> {
        let passed = n.checked_mul(T::size(self.form.class));
        self.bytes = passed.and_then(|at| self.bytes.get(at..)).unwrap_or(&[]);
        self.next()
    }
}

impl<T: Item> ExactSizeIterator for Items<'_, T> {}

impl<T: Item> FusedIterator for Items<'_, T> {}
