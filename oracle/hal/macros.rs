//! The macros that the driver expects of its crate.

/// A pin type with its remap number, as chips without the H4's pin controller have it.
macro_rules! if_remap {
    ($($type:tt)*) => { $($type)* };
}

macro_rules! apply_remap {
    () => {};
}

macro_rules! set_as_af {
    ($pin:ident, $af:expr) => {
        let _ = (&$pin, $af);
    };
}

macro_rules! new_dma {
    ($channel:ident) => {{
        let _ = &$channel;
        Some(ChannelAndRequest::new())
    }};
}

macro_rules! pin_trait {
    ($name:ident, $instance:ident) => {
        pub trait $name<T: $instance, const REMAP: u8>: crate::gpio::Pin {}
        impl<T: $instance> $name<T, 0> for crate::gpio::AnyPin {}
    };
}

macro_rules! dma_trait {
    ($name:ident, $instance:ident) => {
        pub trait $name<T: $instance>: embassy_hal_internal::PeripheralType {}
    };
}

/// One peripheral, I2C1. Its expansion stands inside the driver, so the doors to private functions stand here too.
macro_rules! foreach_peripheral {
    ($($rule:tt)*) => {
        macro_rules! peripheral_body {
            $($rule)*
        }
        peripheral_body!(i2c, I2C1);

        #[path = "../../hal/doors.rs"]
        pub mod doors;
    };
}
