//! What the reference's files use from elsewhere, as small as they need it.

use crate::text::Slot;
use std::net::Ipv4Addr;

/// In the place of `Enr`: an optional IPv4 address and a slot of the host's record store. Equal when all of it is equal.
#[derive(Clone, Copy, Debug, PartialEq, Eq)]
pub struct Value {
    pub address: Option<Ipv4Addr>,
    pub slot: Slot,
}

impl Value {
    pub fn ip4(&self) -> Option<Ipv4Addr> {
        self.address
    }
}

/// The crate's `handler`.
pub mod handler {
    /// How we connected to the node.
    #[derive(PartialEq, Eq, Debug, Copy, Clone)]
    pub enum ConnectionDirection {
        Incoming,
        Outgoing,
    }
}

/// In the place of `std::time::Instant`: milliseconds, set once per call.
pub mod clock {
    use std::cell::Cell;
    use std::ops::Add;
    use std::time::Duration;

    thread_local! {
        static NOW: Cell<Option<u64>> = const { Cell::new(None) };
    }

    /// Sets the time, or takes it away for a call that is given none.
    pub fn set(now: Option<u64>) {
        NOW.set(now);
    }

    #[derive(Copy, Clone, Debug, PartialEq, Eq, PartialOrd, Ord)]
    pub struct Instant(pub u64);

    impl Instant {
        pub fn now() -> Instant {
            Instant(NOW.get().expect("a call that is given no time reads the clock"))
        }
    }

    impl Add<Duration> for Instant {
        type Output = Instant;

        fn add(self, duration: Duration) -> Instant {
            let sum = u128::from(self.0) + duration.as_millis();
            Instant(sum.try_into().expect("the deadline passes 2^64 - 1"))
        }
    }
}

/// The crate `enr`.
pub mod enr {
    #[derive(Clone, Copy, Debug, PartialEq, Eq)]
    pub struct NodeId([u8; 32]);

    impl NodeId {
        pub fn new(raw: &[u8; 32]) -> NodeId {
            NodeId(*raw)
        }

        pub fn raw(&self) -> [u8; 32] {
            self.0
        }
    }
}

/// The crate `tracing`.
pub mod tracing {
    macro_rules! debug {
        ($($words:tt)*) => {{}};
    }
    macro_rules! error {
        ($($words:tt)*) => {{}};
    }
    pub(crate) use {debug, error};
}

/// The crate `uint`.
pub mod uint {
    macro_rules! construct_uint {
        ($(#[$attribute:meta])* $visibility:vis struct $name:ident(4);) => {
            $(#[$attribute])*
            // Four words, the most significant first, so that the order of the words is that of the numbers.
            #[derive(Copy, Clone, PartialEq, Eq, PartialOrd, Ord, Default, Debug)]
            $visibility struct $name([u64; 4]);

            impl $name {
                pub fn from_big_endian(bytes: &[u8]) -> Self {
                    assert!(bytes.len() == 32);
                    let mut words = [0; 4];
                    for (word, eight) in words.iter_mut().zip(bytes.chunks_exact(8)) {
                        *word = u64::from_be_bytes(eight.try_into().unwrap());
                    }
                    Self(words)
                }

                pub fn leading_zeros(&self) -> u32 {
                    match self.0.iter().position(|w| *w != 0) {
                        Some(i) => 64 * i as u32 + self.0[i].leading_zeros(),
                        None => 256,
                    }
                }

                /// Bit `index`, the least significant being 0.
                pub fn bit(&self, index: usize) -> bool {
                    self.0[3 - index / 64] >> (index % 64) & 1 == 1
                }
            }

            impl std::ops::BitXor for $name {
                type Output = Self;

                fn bitxor(self, other: Self) -> Self {
                    Self(std::array::from_fn(|i| self.0[i] ^ other.0[i]))
                }
            }
        };
    }
    pub(crate) use construct_uint;
}

/// The crate `arrayvec`.
#[allow(clippy::new_without_default)]
pub mod arrayvec {
    use std::mem::MaybeUninit;
    use std::ops::{Deref, DerefMut};
    use std::{fmt, ptr, slice};

    /// An array of CAP places, of which the first `len` hold an item.
    pub struct ArrayVec<T, const CAP: usize> {
        len: usize,
        items: [MaybeUninit<T>; CAP],
    }

    impl<T, const CAP: usize> ArrayVec<T, CAP> {
        pub fn new() -> Self {
            ArrayVec { len: 0, items: [const { MaybeUninit::uninit() }; CAP] }
        }

        pub fn is_full(&self) -> bool {
            self.len == CAP
        }

        pub fn push(&mut self, item: T) {
            assert!(self.len < CAP, "push on a full array");
            self.items[self.len].write(item);
            self.len += 1;
        }

        pub fn insert(&mut self, index: usize, item: T) {
            assert!(index <= self.len && self.len < CAP, "insert past the end or into a full array");
            // SAFETY: places index..len hold items and place len is there; all move by one, and place index is written.
            unsafe {
                let place = self.items.as_mut_ptr().add(index);
                ptr::copy(place, place.add(1), self.len - index);
            }
            self.items[index].write(item);
            self.len += 1;
        }

        pub fn remove(&mut self, index: usize) -> T {
            assert!(index < self.len, "remove past the end");
            // SAFETY: place index holds an item; those behind it move over it, and the last place counts as empty.
            unsafe {
                let place = self.items.as_mut_ptr().add(index);
                let item = ptr::read(place).assume_init();
                ptr::copy(place.add(1), place, self.len - index - 1);
                self.len -= 1;
                item
            }
        }
    }

    impl<T, const CAP: usize> Deref for ArrayVec<T, CAP> {
        type Target = [T];

        fn deref(&self) -> &[T] {
            // SAFETY: the first len places hold items.
            unsafe { slice::from_raw_parts(self.items.as_ptr().cast(), self.len) }
        }
    }

    impl<T, const CAP: usize> DerefMut for ArrayVec<T, CAP> {
        fn deref_mut(&mut self) -> &mut [T] {
            // SAFETY: the first len places hold items.
            unsafe { slice::from_raw_parts_mut(self.items.as_mut_ptr().cast(), self.len) }
        }
    }

    impl<T, const CAP: usize> Drop for ArrayVec<T, CAP> {
        fn drop(&mut self) {
            // SAFETY: the first len places hold items, and nothing reads them afterwards.
            unsafe { ptr::drop_in_place(&mut **self) }
        }
    }

    impl<T: Clone, const CAP: usize> Clone for ArrayVec<T, CAP> {
        fn clone(&self) -> Self {
            self.iter().cloned().collect()
        }
    }

    impl<T: fmt::Debug, const CAP: usize> fmt::Debug for ArrayVec<T, CAP> {
        fn fmt(&self, f: &mut fmt::Formatter<'_>) -> fmt::Result {
            (**self).fmt(f)
        }
    }

    impl<T, const CAP: usize> FromIterator<T> for ArrayVec<T, CAP> {
        fn from_iter<I: IntoIterator<Item = T>>(items: I) -> Self {
            let mut array = ArrayVec::new();
            for item in items {
                array.push(item);
            }
            array
        }
    }

    pub struct IntoIter<T, const CAP: usize> {
        next: usize,
        array: ArrayVec<T, CAP>,
    }

    impl<T, const CAP: usize> IntoIterator for ArrayVec<T, CAP> {
        type Item = T;
        type IntoIter = IntoIter<T, CAP>;

        fn into_iter(self) -> IntoIter<T, CAP> {
            IntoIter { next: 0, array: self }
        }
    }

    impl<T, const CAP: usize> Iterator for IntoIter<T, CAP> {
        type Item = T;

        fn next(&mut self) -> Option<T> {
            if self.next == self.array.len {
                return None;
            }
            self.next += 1;
            // SAFETY: the place holds an item that no later step reads again.
            Some(unsafe { self.array.items[self.next - 1].assume_init_read() })
        }
    }

    impl<T, const CAP: usize> Drop for IntoIter<T, CAP> {
        fn drop(&mut self) {
            let end = self.array.len;
            self.array.len = 0;
            for place in &mut self.array.items[self.next..end] {
                // SAFETY: places next..len still hold items; the array itself counts as empty now.
                unsafe { place.assume_init_drop() }
            }
        }
    }
}

#[cfg(test)]
mod tests {
    use super::arrayvec::ArrayVec;
    use std::rc::Rc;

    /// Items move, come out and are dropped once each.
    #[test]
    fn array_of_shared_items() {
        let items: Vec<Rc<usize>> = (0..6).map(Rc::new).collect();
        let held = |expected: usize| assert!(items.iter().all(|item| Rc::strong_count(item) == expected));
        let mut array: ArrayVec<Rc<usize>, 6> = items.iter().take(5).cloned().collect();
        array.insert(2, items[5].clone());
        assert!(array.is_full());
        assert_eq!(array.iter().map(|item| **item).collect::<Vec<_>>(), [0, 1, 5, 2, 3, 4]);
        held(2);
        let taken = array.remove(1);
        assert_eq!(*taken, 1);
        array.push(taken);
        let copy = array.clone();
        held(3);
        let mut rest = copy.into_iter();
        assert_eq!(rest.by_ref().take(3).map(|item| *item).collect::<Vec<_>>(), [0, 5, 2]);
        drop(rest);
        held(2);
        drop(array);
        held(1);
    }
}
