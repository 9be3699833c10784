//! Lists that are mostly short.

use crate::error::Error;
use std::fmt;
use std::ops::{Deref, DerefMut};

/// A list, which takes heap memory only where it has more than N items.
#[derive(Clone)]
pub(crate) struct Few<T, const N: usize> {
    count: usize,
    /// The items, where there are N or fewer; and others.
    few: [T; N],
    /// The items, where there are more.
    many: Vec<T>,
}

impl<T: Copy + Default, const N: usize> Few<T, N> {
    /// A list of so many items, to be written.
    #[inline]
    pub(crate) fn room_of(count: usize) -> Result<Few<T, N>, Error> {
        let many = if count <= N { Vec::new() } else { room_of(count)? };
        Ok(Few { count, few: [T::default(); N], many })
    }

    /// Adds items at the end.
    #[inline]
    pub(crate) fn append(&mut self, items: &[T]) {
        let (start, end) = (self.count, self.count + items.len());
        if end <= N {
            self.few[start..end].copy_from_slice(items);
        } else {
            if start <= N {
                self.many.extend_from_slice(&self.few[..start]);
            }
            self.many.extend_from_slice(items);
        }
        self.count = end;
    }

    /// Takes items off the end, up to where so many are left.
    pub(crate) fn truncate(&mut self, count: usize) {
        if count >= self.count {
            return;
        }
        self.many.truncate(count);
        if self.count > N && count <= N {
            self.few[..count].copy_from_slice(&self.many);
            self.many.clear();
        }
        self.count = count;
    }
}

/// Room for so many items.
pub(crate) fn room_of<T: Clone + Default>(count: usize) -> Result<Vec<T>, Error> {
    let mut room = Vec::new();
    room.try_reserve_exact(count).map_err(|_| Error::NoMemory)?;
    room.resize(count, T::default());
    Ok(room)
}

impl<T: Copy + Default, const N: usize> Default for Few<T, N> {
    #[inline]
    fn default() -> Few<T, N> {
        Few { count: 0, few: [T::default(); N], many: Vec::new() }
    }
}

impl<T: Copy + Default, const N: usize> From<&[T]> for Few<T, N> {
    fn from(items: &[T]) -> Few<T, N> {
        let mut list = Few::default();
        list.append(items);
        list
    }
}

impl<T, const N: usize> Deref for Few<T, N> {
    type Target = [T];

    #[inline]
    fn deref(&self) -> &[T] {
        if self.count <= N {
            &self.few[..self.count]
        } else {
            &self.many
        }
    }
}

impl<T, const N: usize> DerefMut for Few<T, N> {
    #[inline]
    fn deref_mut(&mut self) -> &mut [T] {
        if self.count <= N {
            &mut self.few[..self.count]
        } else {
            &mut self.many
        }
    }
}

impl<T: PartialEq, const N: usize> PartialEq for Few<T, N> {
    fn eq(&self, other: &Few<T, N>) -> bool {
        **self == **other
    }
}

impl<T: Eq, const N: usize> Eq for Few<T, N> {}

impl<T: fmt::Debug, const N: usize> fmt::Debug for Few<T, N> {
    fn fmt(&self, f: &mut fmt::Formatter<'_>) -> fmt::Result {
        (**self).fmt(f)
    }
}

#[cfg(test)]
mod tests {
    use super::Few;
    use crate::Error;

    #[test]
    fn items_stay_in_their_order() {
        let all: Vec<u32> = (1..=12).collect();
        for parts in [1, 2, 3, 4, 5, 12] {
            let mut list: Few<u32, 4> = Few::default();
            for (at, part) in all.chunks(parts).enumerate() {
                assert_eq!(*list, all[..at * parts]);
                list.append(part);
                assert_eq!(list.many.is_empty(), list.len() <= 4);
            }
            list.append(&[]);
            assert_eq!((&*list, format!("{list:?}")), (&all[..], format!("{all:?}")));
        }
    }

    #[test]
    fn items_are_taken_off_the_end() {
        let all: Vec<u32> = (1..=12).collect();
        for (count, left) in (0..=12).flat_map(|count| (0..=13).map(move |left| (count, left))) {
            let mut list: Few<u32, 4> = Few::from(&all[..count]);
            list.truncate(left);
            assert_eq!((&*list, list.many.is_empty()), (&all[..left.min(count)], list.len() <= 4));
            list.append(&all);
            assert_eq!((&list[..left.min(count)], &list[left.min(count)..]), (&all[..left.min(count)], &all[..]));
        }
    }

    #[test]
    fn room_is_written() {
        for count in 0..7 {
            let mut room: Few<u64, 3> = Few::room_of(count).unwrap();
            room.iter_mut().zip(1..).for_each(|(item, number)| *item = number);
            let written: Vec<u64> = (1..=count as u64).collect();
            assert_eq!((&*room, room == Few::from(&written[..])), (&written[..], true));
            assert_ne!(room, Few::from(&[7; 3][..]));
        }
        assert_eq!(Few::<u64, 3>::room_of(usize::MAX).err(), Some(Error::NoMemory));
    }
}
