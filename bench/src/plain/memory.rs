//! The main memory: words over a lent buffer of bytes, the low ones protected.

/// The sizes that a memory can have, in words.
pub const SIZES: std::ops::RangeInclusive<usize> = 16..=1_048_576;

/// Why an access is refused.
#[derive(Clone, Copy, Debug, PartialEq, Eq)]
pub enum AccessRefusal {
    /// 4
    OutOfRange,
    /// 5
    Protected,
}

pub struct Memory<'a> {
    /// The words, the most significant byte first.
    words: &'a mut [[u8; 4]],
    /// Words below the mark are protected.
    mark: u32,
}

impl<'a> Memory<'a> {
    /// A memory over the whole buffer, with mark 0. A buffer of no whole number of words, or of too few or too many,
    /// gives a memory of size 0.
    pub fn over(buffer: &'a mut [u8]) -> Self {
        let (words, rest) = buffer.as_chunks_mut();
        let fits = rest.is_empty() && SIZES.contains(&words.len());
        Memory {
            words: if fits { words } else { &mut [] },
            mark: 0,
        }
    }

    /// The number of words.
    pub fn size(&self) -> u32 {
        self.words.len() as u32
    }

    pub fn mark(&self) -> u32 {
        self.mark
    }

    pub fn read(&self, address: u32) -> Result<u32, AccessRefusal> {
        match self.words.get(address as usize) {
            Some(word) => Ok(u32::from_be_bytes(*word)),
            None => Err(AccessRefusal::OutOfRange),
        }
    }

    pub fn write(&mut self, address: u32, value: u32) -> Result<(), AccessRefusal> {
        match self.words.get_mut(address as usize) {
            None => Err(AccessRefusal::OutOfRange),
            Some(_) if address < self.mark => Err(AccessRefusal::Protected),
            Some(word) => {
                *word = value.to_be_bytes();
                Ok(())
            }
        }
    }

    /// Replaces all words, and protects those below the mark.
    pub fn fill(&mut self, mark: u32, word_at: impl Fn(u32) -> u32) {
        for (address, word) in (0..).zip(self.words.iter_mut()) {
            *word = word_at(address).to_be_bytes();
        }
        self.mark = mark;
    }
}
