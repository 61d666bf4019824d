//! `embassy_sync`: the waker that only the async driver uses.

pub mod waitqueue {
    use std::task::Waker;

    pub struct AtomicWaker;

    impl AtomicWaker {
        pub const fn new() -> Self {
            Self
        }
        pub fn register(&self, _waker: &Waker) {}
        pub fn wake(&self) {}
    }
}
