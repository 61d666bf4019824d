//! `embassy_hal_internal`: owned peripherals and the guard that runs its function when it is dropped.

use std::marker::PhantomData;
use std::ops::{Deref, DerefMut};

pub trait PeripheralType: Copy + Sized {}

pub struct Peri<'a, T: PeripheralType> {
    inner: T,
    _lifetime: PhantomData<&'a mut T>,
}

impl<'a, T: PeripheralType> Peri<'a, T> {
    pub fn new(inner: T) -> Self {
        Self {
            inner,
            _lifetime: PhantomData,
        }
    }

    pub fn into<U: PeripheralType>(self) -> Peri<'a, U>
    where
        T: Into<U>,
    {
        Peri::new(self.inner.into())
    }
}

impl<T: PeripheralType> Deref for Peri<'_, T> {
    type Target = T;
    fn deref(&self) -> &T {
        &self.inner
    }
}

impl<T: PeripheralType> DerefMut for Peri<'_, T> {
    fn deref_mut(&mut self) -> &mut T {
        &mut self.inner
    }
}

pub mod drop {
    use std::mem::{forget, take};

    /// Runs its function when dropped, unless defused.
    pub struct OnDrop<F: FnOnce()> {
        f: Option<F>,
    }

    impl<F: FnOnce()> OnDrop<F> {
        pub fn new(f: F) -> Self {
            Self { f: Some(f) }
        }

        pub fn defuse(self) {
            forget(self)
        }
    }

    impl<F: FnOnce()> Drop for OnDrop<F> {
        fn drop(&mut self) {
            if let Some(f) = take(&mut self.f) {
                f()
            }
        }
    }
}
