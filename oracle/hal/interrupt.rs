//! Interrupts, which never come here.

pub mod typelevel {
    pub trait Interrupt {
        fn unpend() {}
        unsafe fn enable() {}
        fn disable() {}
    }

    pub trait Handler<I: Interrupt> {
        unsafe fn on_interrupt();
    }

    pub trait Binding<I: Interrupt, H: Handler<I>> {}
}
