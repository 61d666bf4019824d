//! Blocking and async drivers.

pub trait Mode {}

pub struct Blocking;
pub struct Async;

impl Mode for Blocking {}
impl Mode for Async {}
