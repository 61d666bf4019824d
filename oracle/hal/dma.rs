//! DMA, which only the async driver uses. It is compiled and never run.

use std::future::Future;
use std::marker::PhantomData;
use std::pin::Pin;
use std::task::{Context, Poll};

pub struct ChannelAndRequest<'d>(PhantomData<&'d ()>);

#[derive(Default)]
pub struct TransferOptions;

pub struct Transfer;

impl<'d> ChannelAndRequest<'d> {
    pub fn new() -> Self {
        Self(PhantomData)
    }

    pub unsafe fn read(&mut self, _from: *mut u8, _to: &mut [u8], _options: TransferOptions) -> Transfer {
        Transfer
    }

    pub unsafe fn write(&mut self, _from: &[u8], _to: *mut u8, _options: TransferOptions) -> Transfer {
        Transfer
    }
}

impl Transfer {
    pub fn get_remaining_transfers(&self) -> u16 {
        0
    }

    pub fn is_running(&mut self) -> bool {
        false
    }
}

impl Future for Transfer {
    type Output = ();
    fn poll(self: Pin<&mut Self>, _context: &mut Context<'_>) -> Poll<()> {
        Poll::Ready(())
    }
}
