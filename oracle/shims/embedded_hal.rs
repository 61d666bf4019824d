//! `embedded_hal`: the I2C names that the driver implements or takes.

pub mod i2c {
    pub enum Operation<'a> {
        Read(&'a mut [u8]),
        Write(&'a [u8]),
    }

    pub enum NoAcknowledgeSource {
        Address,
        Data,
        Unknown,
    }

    pub enum ErrorKind {
        Bus,
        ArbitrationLoss,
        NoAcknowledge(NoAcknowledgeSource),
        Overrun,
        Other,
    }

    pub trait Error {
        fn kind(&self) -> ErrorKind;
    }

    pub trait ErrorType {
        type Error: Error;
    }

    pub trait I2c: ErrorType {
        fn read(&mut self, address: u8, read: &mut [u8]) -> Result<(), Self::Error>;
        fn write(&mut self, address: u8, write: &[u8]) -> Result<(), Self::Error>;
        fn write_read(&mut self, address: u8, write: &[u8], read: &mut [u8]) -> Result<(), Self::Error>;
        fn transaction(&mut self, address: u8, operations: &mut [Operation<'_>]) -> Result<(), Self::Error>;
    }
}
