//! A plain simulator of the Mic-1 with the published microprogram, written from the manual.
//!
//! It runs every cycle from the control store and makes all checks of the manual, and proves nothing.
#![forbid(unsafe_code)]

mod alu;
mod control;
mod datapath;
mod image;
mod instructions;
mod machine;
mod memory;
mod published;
#[cfg(test)]
mod tests;

use image::Image;
use machine::Machine;
use memory::Memory;

/// Where a run ended, and what it came to.
#[derive(Clone, Copy, Debug, PartialEq, Eq)]
pub struct Report {
    /// The number of the refusal that stopped the run, or load's; 0 where all steps were done.
    pub end: u32,
    /// The steps that were performed.
    pub steps: u64,
    /// The cycles that the counter shows.
    pub cycles: u64,
    /// The top of the operand stack; none where it is empty, or where the image was refused.
    pub top: Option<i32>,
}

/// Loads an image into a machine over the whole buffer, and runs up to so many steps.
pub fn run(image: &[u8], memory: &mut [u8], steps: u64) -> Report {
    let mut machine = Machine::power(Memory::over(memory));
    let loaded = Image::parse(image).and_then(|image| machine.load(&image));
    if let Err(refusal) = loaded {
        return Report {
            end: refusal.number(),
            steps: 0,
            cycles: 0,
            top: None,
        };
    }
    let ran = machine.run(steps);
    Report {
        end: ran.stopped.map_or(0, |refusal| refusal.number()),
        steps: ran.steps,
        cycles: machine.cycles(),
        top: machine.top().map(u32::cast_signed),
    }
}
