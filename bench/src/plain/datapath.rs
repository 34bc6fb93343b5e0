//! The datapath, and the cycle that moves it.

use crate::alu::{alu, shift};
use crate::control::{CBits, ControlStore, Data, Source};
use crate::memory::{AccessRefusal, Memory};

/// The registers that the C bus loads.
#[derive(Clone, Copy, Debug, Default, PartialEq, Eq)]
pub struct Registers {
    pub h: u32,
    pub opc: u32,
    pub tos: u32,
    pub cpp: u32,
    pub lv: u32,
    pub sp: u32,
    pub pc: u32,
    pub mdr: u32,
    pub mar: u32,
}

impl Registers {
    /// Loads the registers whose C bits are set.
    fn load(&mut self, c: &CBits, value: u32) {
        if c.h {
            self.h = value;
        }
        if c.opc {
            self.opc = value;
        }
        if c.tos {
            self.tos = value;
        }
        if c.cpp {
            self.cpp = value;
        }
        if c.lv {
            self.lv = value;
        }
        if c.sp {
            self.sp = value;
        }
        if c.pc {
            self.pc = value;
        }
        if c.mdr {
            self.mdr = value;
        }
        if c.mar {
            self.mar = value;
        }
    }
}

/// A read or write under way, at a word address, with the MPC that began it.
#[derive(Clone, Copy, Debug, PartialEq, Eq)]
pub enum Access {
    Read { address: u32, mpc: u16 },
    Write { address: u32, word: u32, mpc: u16 },
}

/// A fetch under way, at a byte address, with the MPC that began it.
#[derive(Clone, Copy, Debug, PartialEq, Eq)]
pub struct Fetch {
    pub address: u32,
    pub mpc: u16,
}

#[derive(Clone, Copy, Debug, PartialEq, Eq)]
pub enum Port {
    Fetch,
    Read,
    Write,
}

/// An access that the memory refuses: the word address, and the MPC that began it.
#[derive(Clone, Copy, Debug, PartialEq, Eq)]
pub struct Fault {
    pub cause: AccessRefusal,
    pub address: u32,
    pub port: Port,
    pub mpc: u16,
}

/// Everything that a cycle moves, but the memory.
#[derive(Clone, Copy, Debug, Default, PartialEq, Eq)]
pub struct State {
    pub registers: Registers,
    pub mbr: u8,
    pub mpc: u16,
    /// The cycles, modulo 2^64.
    pub counter: u64,
    pub access: Option<Access>,
    pub fetch: Option<Fetch>,
}

/// The byte at a byte address, in its word.
pub fn byte_in(word: u32, address: u32) -> u8 {
    word.to_be_bytes()[(address % 4) as usize]
}

pub struct Datapath<'a> {
    pub memory: Memory<'a>,
    pub state: State,
}

impl Datapath<'_> {
    /// One cycle by the control word at MPC. Where the memory refuses an access, nothing changes.
    pub fn cycle(&mut self, store: &ControlStore) -> Result<(), Fault> {
        let word = store.word(self.state.mpc);
        let answer = alu(&word.alu, self.state.registers.h, self.bus(word.b));
        let c_bus = shift(word.shift, answer.result);
        // The dispatch is on the MBR that was held before a byte arrives.
        let next = word.successor(self.state.mbr, answer.n, answer.z);

        let byte = self.complete_fetch()?;
        let data = self.complete_access()?;

        let State {
            registers,
            mbr,
            mpc,
            counter,
            access,
            fetch,
        } = &mut self.state;
        registers.load(&word.c, c_bus);
        // What arrives wins over the C bus.
        if let Some(data) = data {
            registers.mdr = data;
        }
        if let Some(byte) = byte {
            *mbr = byte;
        }

        *access = match word.data {
            Data::Nothing => None,
            Data::Read => Some(Access::Read {
                address: registers.mar,
                mpc: *mpc,
            }),
            Data::Write => Some(Access::Write {
                address: registers.mar,
                word: registers.mdr,
                mpc: *mpc,
            }),
        };
        *fetch = word.fetch.then_some(Fetch {
            address: registers.pc,
            mpc: *mpc,
        });

        *mpc = next;
        *counter = counter.wrapping_add(1);
        Ok(())
    }

    /// Up to so many cycles: how many were done, and the fault that stopped them, if one did.
    pub fn go(&mut self, store: &ControlStore, cycles: u32) -> (u32, Option<Fault>) {
        for done in 0..cycles {
            if let Err(fault) = self.cycle(store) {
                return (done, Some(fault));
            }
        }
        (cycles, None)
    }

    fn bus(&self, source: Source) -> u32 {
        let registers = &self.state.registers;
        match source {
            Source::Mdr => registers.mdr,
            Source::Pc => registers.pc,
            Source::Mbr => i32::from(self.state.mbr.cast_signed()).cast_unsigned(),
            Source::Mbru => u32::from(self.state.mbr),
            Source::Sp => registers.sp,
            Source::Lv => registers.lv,
            Source::Cpp => registers.cpp,
            Source::Tos => registers.tos,
            Source::Opc => registers.opc,
            Source::Nothing => 0,
        }
    }

    /// The byte that arrives, if a fetch is under way.
    fn complete_fetch(&self) -> Result<Option<u8>, Fault> {
        let Some(Fetch { address, mpc }) = self.state.fetch else {
            return Ok(None);
        };
        match self.memory.read(address / 4) {
            Ok(word) => Ok(Some(byte_in(word, address))),
            Err(cause) => Err(Fault {
                cause,
                address: address / 4,
                port: Port::Fetch,
                mpc,
            }),
        }
    }

    /// The word that arrives, if a read is under way; a write under way is done.
    fn complete_access(&mut self) -> Result<Option<u32>, Fault> {
        match self.state.access {
            None => Ok(None),
            Some(Access::Read { address, mpc }) => match self.memory.read(address) {
                Ok(word) => Ok(Some(word)),
                Err(cause) => Err(Fault {
                    cause,
                    address,
                    port: Port::Read,
                    mpc,
                }),
            },
            Some(Access::Write { address, word, mpc }) => match self.memory.write(address, word) {
                Ok(()) => Ok(None),
                Err(cause) => Err(Fault {
                    cause,
                    address,
                    port: Port::Write,
                    mpc,
                }),
            },
        }
    }
}
