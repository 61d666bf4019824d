//! `embedded_hal_async`: the trait of the async driver. It is compiled and never run.

pub mod i2c {
    pub use embedded_hal::i2c::{ErrorType, Operation};

    #[allow(async_fn_in_trait)]
    pub trait I2c: ErrorType {
        async fn read(&mut self, address: u8, read: &mut [u8]) -> Result<(), Self::Error>;
        async fn write(&mut self, address: u8, write: &[u8]) -> Result<(), Self::Error>;
        async fn write_read(&mut self, address: u8, write: &[u8], read: &mut [u8]) -> Result<(), Self::Error>;
        async fn transaction(&mut self, address: u8, operations: &mut [Operation<'_>]) -> Result<(), Self::Error>;
    }
}
