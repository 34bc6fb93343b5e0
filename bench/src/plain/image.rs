//! The image of a program, and what load refuses.

use crate::datapath::byte_in;
use crate::memory::SIZES;

const WORD: usize = 4;
/// A block has 128 words, the last of which is its check.
const BLOCK: usize = 512;
const BLOCK_WORDS: usize = 128;
const CARRIED: usize = BLOCK_WORDS - 1;
/// The words of block 0 that are used.
const HEADER_WORDS: usize = 6;

/// The number of an image that is wrong.
#[derive(Clone, Copy, Debug, PartialEq, Eq)]
pub enum Place {
    Size,
    Mark,
    Pool,
    Main,
}

/// Why an image is not loaded.
#[derive(Clone, Copy, Debug, PartialEq, Eq)]
pub enum LoadRefusal {
    WrongLength,
    FailedCheck { block: usize },
    WrongCount,
    WrongNumber(Place),
    NotZero,
    OtherSize,
    Marked,
}

impl LoadRefusal {
    pub fn number(self) -> u32 {
        match self {
            LoadRefusal::WrongLength => 20,
            LoadRefusal::FailedCheck { .. } => 21,
            LoadRefusal::WrongCount => 22,
            LoadRefusal::WrongNumber(_) => 23,
            LoadRefusal::NotZero => 24,
            LoadRefusal::OtherSize => 25,
            LoadRefusal::Marked => 26,
        }
    }
}

/// An image that passed the checks 20 to 24: a view of its bytes, with its numbers.
pub struct Image<'a> {
    words: &'a [[u8; WORD]],
    pub size: u32,
    pub mark: u32,
    pub cpp: u32,
    pub pool: u32,
    /// Main's byte address.
    pub main: u32,
}

impl<'a> Image<'a> {
    pub fn parse(bytes: &'a [u8]) -> Result<Self, LoadRefusal> {
        if bytes.len() < 2 * BLOCK || !bytes.len().is_multiple_of(BLOCK) {
            return Err(LoadRefusal::WrongLength);
        }
        let (words, _) = bytes.as_chunks::<WORD>();
        for (block, words) in words.chunks_exact(BLOCK_WORDS).enumerate() {
            let sum = words.iter().fold(0u32, |sum, word| {
                sum.wrapping_add(u32::from_be_bytes(*word))
            });
            if sum != block as u32 {
                return Err(LoadRefusal::FailedCheck { block });
            }
        }
        let header = |index: usize| u32::from_be_bytes(words[index]);
        let blocks = words.len() / BLOCK_WORDS;
        if header(0) as usize != blocks {
            return Err(LoadRefusal::WrongCount);
        }
        let image = Image {
            words,
            size: header(1),
            mark: header(2),
            cpp: header(3),
            pool: header(4),
            main: header(5),
        };
        image
            .check_numbers(blocks)
            .map_err(LoadRefusal::WrongNumber)?;
        if !image.unused_is_zero() {
            return Err(LoadRefusal::NotZero);
        }
        Ok(image)
    }

    /// The protected word at an address below the mark.
    pub fn word(&self, address: u32) -> u32 {
        let address = address as usize;
        u32::from_be_bytes(self.words[BLOCK_WORDS * (1 + address / CARRIED) + address % CARRIED])
    }

    /// The byte at a byte address in code.
    pub fn byte(&self, address: u32) -> u8 {
        byte_in(self.word(address / 4), address)
    }

    /// Main's locals.
    pub fn locals(&self) -> u16 {
        self.short(self.main + 2)
    }

    fn short(&self, address: u32) -> u16 {
        u16::from_be_bytes([self.byte(address), self.byte(address + 1)])
    }

    fn check_numbers(&self, blocks: usize) -> Result<(), Place> {
        let mark = u64::from(self.mark);
        if !SIZES.contains(&(self.size as usize)) {
            return Err(Place::Size);
        }
        if self.mark == 0
            || self.mark >= self.size
            || blocks != 1 + (self.mark as usize).div_ceil(CARRIED)
        {
            return Err(Place::Mark);
        }
        if u64::from(self.cpp) + u64::from(self.pool) > mark {
            return Err(Place::Pool);
        }
        if u64::from(self.main) + 4 >= 4 * mark
            || self.short(self.main) != 1
            || mark + u64::from(self.locals()) + 2 >= u64::from(self.size)
        {
            return Err(Place::Main);
        }
        Ok(())
    }

    fn unused_is_zero(&self) -> bool {
        let (header, carriers) = self.words.split_at(BLOCK_WORDS);
        let unused_in_header = &header[HEADER_WORDS..CARRIED];
        let unused_behind_code = carriers
            .chunks_exact(BLOCK_WORDS)
            .flat_map(|block| &block[..CARRIED])
            .skip(self.mark as usize);
        unused_in_header
            .iter()
            .chain(unused_behind_code)
            .all(|word| *word == [0; WORD])
    }
}
