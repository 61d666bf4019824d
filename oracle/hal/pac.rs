//! The register crate, in the shape in which the driver uses it. Bits and fields are document 01's.

pub mod i2c {
    use std::marker::PhantomData;
    use std::panic::Location;

    use record::{CKCFGR, CTLR1, CTLR2, DATAR, OADDR1, OADDR2, RTR, STAR1, STAR2};

    /// A register's word. Only its low 16 bits are ever set.
    pub trait Word {
        fn of(word: u32) -> Self;
        fn word(&self) -> u32;
    }

    /// A register that records what is done to it.
    #[derive(Copy, Clone)]
    pub struct Reg<R> {
        number: u32,
        _word: PhantomData<R>,
    }

    impl<R: Word> Reg<R> {
        const fn new(number: u32) -> Self {
            Self {
                number,
                _word: PhantomData,
            }
        }

        #[track_caller]
        pub fn read(&self) -> R {
            R::of(record::read(self.number, Location::caller()) as u32)
        }

        #[track_caller]
        pub fn write_value(&self, value: R) {
            record::write(self.number, value.word(), Location::caller())
        }

        /// Starts from 0.
        #[track_caller]
        pub fn write<T>(&self, f: impl FnOnce(&mut R) -> T) -> T {
            let mut value = R::of(0);
            let result = f(&mut value);
            record::write(self.number, value.word(), Location::caller());
            result
        }

        #[track_caller]
        pub fn modify<T>(&self, f: impl FnOnce(&mut R) -> T) -> T {
            let mut value = R::of(record::read(self.number, Location::caller()) as u32);
            let result = f(&mut value);
            record::write(self.number, value.word(), Location::caller());
            result
        }

        /// Where DMA would find the register. Only the async driver asks.
        pub fn as_ptr(&self) -> *mut R {
            std::ptr::null_mut()
        }
    }

    #[derive(Copy, Clone)]
    pub struct I2c;

    impl I2c {
        pub fn ctlr1(self) -> Reg<regs::Ctlr1> {
            Reg::new(CTLR1)
        }
        pub fn ctlr2(self) -> Reg<regs::Ctlr2> {
            Reg::new(CTLR2)
        }
        pub fn oaddr1(self) -> Reg<regs::Oaddr1> {
            Reg::new(OADDR1)
        }
        pub fn oaddr2(self) -> Reg<regs::Oaddr2> {
            Reg::new(OADDR2)
        }
        pub fn datar(self) -> Reg<regs::Datar> {
            Reg::new(DATAR)
        }
        pub fn star1(self) -> Reg<regs::Star1> {
            Reg::new(STAR1)
        }
        pub fn star2(self) -> Reg<regs::Star2> {
            Reg::new(STAR2)
        }
        pub fn ckcfgr(self) -> Reg<regs::Ckcfgr> {
            Reg::new(CKCFGR)
        }
        pub fn rtr(self) -> Reg<regs::Rtr> {
            Reg::new(RTR)
        }
    }

    pub mod regs {
        use super::Word;

        /// A register's flags by bit number, and its fields by lowest bit and width. A value written to a field
        /// loses the bits above it.
        macro_rules! register {
            ($name:ident { $($get:ident $set:ident $bit:literal;)* }
             fields { $($fget:ident $fset:ident $type:ident $low:literal $width:literal;)* }) => {
                #[derive(Copy, Clone)]
                pub struct $name(pub u32);

                impl Word for $name {
                    fn of(word: u32) -> Self {
                        Self(word)
                    }
                    fn word(&self) -> u32 {
                        self.0
                    }
                }

                impl $name {
                    $(
                        pub fn $get(&self) -> bool {
                            self.0 >> $bit & 1 != 0
                        }
                        pub fn $set(&mut self, value: bool) {
                            self.0 = self.0 & !(1 << $bit) | (value as u32) << $bit
                        }
                    )*
                    $(
                        pub fn $fget(&self) -> $type {
                            (self.0 >> $low & ((1 << $width) - 1)) as $type
                        }
                        pub fn $fset(&mut self, value: $type) {
                            let mask = (1 << $width) - 1;
                            self.0 = self.0 & !(mask << $low) | (value as u32 & mask) << $low
                        }
                    )*
                }
            };
        }

        register!(Ctlr1 {
            pe set_pe 0;
            engc set_engc 6;
            nostretch set_nostretch 7;
            start set_start 8;
            stop set_stop 9;
            ack set_ack 10;
            pos set_pos 11;
            swrst set_swrst 15;
        } fields {});

        register!(Ctlr2 {
            iterren set_iterren 8;
            itevten set_itevten 9;
            itbufen set_itbufen 10;
            dmaen set_dmaen 11;
            last set_last 12;
        } fields {
            freq set_freq u8 0 6;
        });

        register!(Oaddr1 {
            add0 set_add0 0;
            must1 set_must1 14;
            addmode set_addmode 15;
        } fields {
            add7_1 set_add7_1 u8 1 7;
            add9_8 set_add9_8 u8 8 2;
        });

        register!(Oaddr2 {
            endual set_endual 0;
        } fields {
            add2 set_add2 u8 1 7;
        });

        register!(Datar {} fields {
            datar set_datar u8 0 8;
        });

        register!(Star1 {
            sb set_sb 0;
            addr set_addr 1;
            btf set_btf 2;
            stopf set_stopf 4;
            rx_ne set_rx_ne 6;
            tx_e set_tx_e 7;
            berr set_berr 8;
            arlo set_arlo 9;
            af set_af 10;
            ovr set_ovr 11;
            pecerr set_pecerr 12;
            timeout set_timeout 14;
        } fields {});

        register!(Star2 {
            msl set_msl 0;
            busy set_busy 1;
            tra set_tra 2;
            gencall set_gencall 4;
            dualf set_dualf 7;
        } fields {});

        register!(Ckcfgr {
            duty set_duty 14;
            f_s set_f_s 15;
        } fields {
            ccr set_ccr u16 0 12;
        });

        register!(Rtr {} fields {
            trise set_trise u8 0 6;
        });
    }
}

pub const I2C1: i2c::I2c = i2c::I2c;
