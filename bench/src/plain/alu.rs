//! The ALU and the shifter.

use crate::control::{AluSignals, Function, Shift};

/// What the ALU answers: its result, and the flags before the shifter.
pub struct Answer {
    pub result: u32,
    pub n: bool,
    pub z: bool,
}

pub fn alu(signals: &AluSignals, h: u32, bus: u32) -> Answer {
    let left = if signals.ena { h } else { 0 };
    let a = if signals.inva { !left } else { left };
    let b = if signals.enb { bus } else { 0 };
    let result = match signals.function {
        Function::And => a & b,
        Function::Or => a | b,
        Function::NotB => !b,
        Function::Sum => a.wrapping_add(b).wrapping_add(u32::from(signals.inc)),
    };
    Answer {
        result,
        n: result.cast_signed() < 0,
        z: result == 0,
    }
}

pub fn shift(shift: Shift, result: u32) -> u32 {
    match shift {
        Shift::Keep => result,
        Shift::LeftByByte => result << 8,
        Shift::RightByBit => (result.cast_signed() >> 1).cast_unsigned(),
    }
}
