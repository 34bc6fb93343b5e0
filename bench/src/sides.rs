//! The two sides that are compared.

use crate::kit;
use plain::Report;

#[derive(Clone, Copy, Debug, PartialEq, Eq)]
pub enum Side {
    Kit,
    Plain,
}

impl Side {
    pub fn run(self, image: &[u8], memory: &mut [u8], steps: u64) -> Report {
        match self {
            Side::Kit => kit::run(image, memory, steps),
            Side::Plain => plain::run(image, memory, steps),
        }
    }
}

/// Says how the reports and buffers of two runs differ, if they do.
pub fn difference(kit: (&Report, &[u8]), plain: (&Report, &[u8])) -> Option<String> {
    if kit.0 != plain.0 {
        return Some(format!("the kit answers {:?}, plain {:?}", kit.0, plain.0));
    }
    let index = (0..kit.1.len()).find(|&index| kit.1[index] != plain.1[index])?;
    Some(format!(
        "byte {index} of the buffer is {:#04X} by the kit, {:#04X} by plain",
        kit.1[index], plain.1[index]
    ))
}

/// The size of the memory that an image is for, in bytes.
pub fn buffer_size(image: &[u8]) -> Option<usize> {
    let size = image.get(4..8)?;
    let size = u32::from_be_bytes(size.try_into().ok()?);
    (16..=1_048_576)
        .contains(&size)
        .then_some(4 * size as usize)
}
