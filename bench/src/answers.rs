//! The first part: both sides give equal answers on many small inputs.

use crate::kit;
use crate::sides::{Side, buffer_size, difference};

/// The most steps of a run here, which is enough for the summing image to end.
const STEPS: u64 = 300;
const RANDOM_IMAGES: u64 = 3000;

const OPCODES: [u8; 20] = [
    0x00, 0x10, 0x13, 0x15, 0x36, 0x57, 0x59, 0x5F, 0x60, 0x64, 0x7E, 0x80, 0x84, 0x99, 0x9B, 0x9F,
    0xA7, 0xAC, 0xB6, 0xC4,
];

/// Compares both sides on inputs made from each image, and answers how many inputs there were.
pub fn compare_answers(images: &[(String, Vec<u8>)]) -> Result<u64, String> {
    let mut compared = Compared { inputs: 0 };
    for (name, image) in images {
        let size = buffer_size(image).ok_or_else(|| format!("{name}: word 1 is no size"))?;
        results_of_wrong_length(image, size)?;
        compared.budgets(name, image, size)?;
        compared.buffers(name, image, size)?;
        compared.truncations(name, image, size)?;
        compared.damages(name, image, size)?;
        compared.ends_of_code(name, image, size)?;
        compared.random_code(name, image, size)?;
    }
    Ok(compared.inputs)
}

/// Results of another length than four are refused, and they and the buffer stay as they were.
fn results_of_wrong_length(image: &[u8], size: usize) -> Result<(), String> {
    for length in [0, 1, 3, 5, 8] {
        let mut results = vec![7; length];
        let mut buffer = vec![0xA5; size];
        if kit::call(image, &mut buffer, 1, &mut results)
            || results.iter().any(|&word| word != 7)
            || buffer.iter().any(|&byte| byte != 0xA5)
        {
            return Err(format!("the kit does not refuse room for {length} results"));
        }
    }
    Ok(())
}

struct Compared {
    inputs: u64,
}

impl Compared {
    /// One input, in a buffer that holds this byte everywhere.
    fn input(
        &mut self,
        what: &dyn Fn() -> String,
        image: &[u8],
        buffer: (usize, u8),
        steps: u64,
    ) -> Result<(), String> {
        let (size, filling) = buffer;
        let mut by_kit = vec![filling; size];
        let mut by_plain = by_kit.clone();
        let kit = Side::Kit.run(image, &mut by_kit, steps);
        let plain = Side::Plain.run(image, &mut by_plain, steps);
        self.inputs += 1;
        match difference((&kit, &by_kit), (&plain, &by_plain)) {
            Some(difference) => Err(format!("{}: {difference}", what())),
            None => Ok(()),
        }
    }

    fn budgets(&mut self, name: &str, image: &[u8], size: usize) -> Result<(), String> {
        for steps in 0..=200 {
            for filling in [0, 0xA5] {
                let what = || format!("{name}, {steps} steps, buffer of {filling:#04X}");
                self.input(&what, image, (size, filling), steps)?;
            }
        }
        Ok(())
    }

    fn buffers(&mut self, name: &str, image: &[u8], size: usize) -> Result<(), String> {
        let near = [
            size - 4,
            size - 1,
            size,
            size + 1,
            size + 2,
            size + 3,
            size + 4,
        ];
        for bytes in [0, 1, 3, 4, 60, 63, 64, 65, 68].into_iter().chain(near) {
            for steps in [0, 1, STEPS] {
                let what = || format!("{name}, buffer of {bytes} bytes, {steps} steps");
                self.input(&what, image, (bytes, 0x5A), steps)?;
            }
        }
        Ok(())
    }

    fn truncations(&mut self, name: &str, image: &[u8], size: usize) -> Result<(), String> {
        let few = image.len().min(1536);
        let ends =
            (0..=few).filter(|length| length % 5 == 0 || length % 512 <= 4 || length % 512 >= 508);
        for length in ends {
            let mut image = image[..length].to_vec();
            let what = || format!("{name}, the first {length} bytes");
            self.input(&what, &image, (size, 0), STEPS)?;
            mend(&mut image);
            let what = || format!("{name}, the first {length} bytes, mended");
            self.input(&what, &image, (size, 0), STEPS)?;
        }
        // One and two blocks more.
        for more in [512, 1024] {
            let mut image = image.to_vec();
            image.resize(image.len() + more, 0);
            mend(&mut image);
            let what = || format!("{name}, {more} bytes more");
            self.input(&what, &image, (size, 0), STEPS)?;
        }
        Ok(())
    }

    /// Single bytes changed, with the checks left or mended.
    fn damages(&mut self, name: &str, image: &[u8], size: usize) -> Result<(), String> {
        for index in 0..image.len() {
            let close = index < 32 || (512..640).contains(&index) || index % 512 >= 500;
            if !close && !index.is_multiple_of(11) {
                continue;
            }
            for change in [0x01, 0x02, 0x08, 0x80, 0xFF] {
                for mended in [false, true] {
                    let mut image = image.to_vec();
                    image[index] ^= change;
                    if mended {
                        mend(&mut image);
                    }
                    let what = || {
                        format!("{name}, byte {index} changed by {change:#04X}, mended: {mended}")
                    };
                    self.input(&what, &image, (size, 0), STEPS)?;
                }
            }
        }
        Ok(())
    }

    /// A jump to each instruction in the last bytes of code.
    fn ends_of_code(&mut self, name: &str, image: &[u8], size: usize) -> Result<(), String> {
        let end = code_bytes(image);
        let pc = u64::from(word(image, 5)) + 4;
        for opcode in OPCODES {
            for second in [0x00, 0x15, 0x36, 0x84] {
                for back in 1..=6 {
                    let mut image = image.to_vec();
                    let [high, low] = ((end - back) as i16 - pc as i16).to_be_bytes();
                    let code = &mut image[512..512 + end as usize];
                    code[pc as usize..pc as usize + 3].copy_from_slice(&[0xA7, high, low]);
                    let last = &mut code[(end - back) as usize..];
                    for (byte, new) in last.iter_mut().zip([opcode, second]) {
                        *byte = new;
                    }
                    mend(&mut image);
                    let what =
                        || format!("{name}, {opcode:#04X} {second:#04X} at {back} before the end");
                    self.input(&what, &image, (size, 0), STEPS)?;
                }
            }
        }
        Ok(())
    }

    /// Bytes of the protected words replaced at random, half of them by opcodes.
    fn random_code(&mut self, name: &str, image: &[u8], size: usize) -> Result<(), String> {
        let code_bytes = code_bytes(image);
        let mut random = Random(0x9E37_79B9_7F4A_7C15);
        for number in 0..RANDOM_IMAGES {
            let mut image = image.to_vec();
            for _ in 0..=random.below(12) {
                let index = 512 + random.below(code_bytes) as usize;
                image[index] = match random.below(4) {
                    0 => random.below(256) as u8,
                    1 => random.below(8) as u8,
                    _ => OPCODES[random.below(20) as usize],
                };
            }
            mend(&mut image);
            let steps = random.below(STEPS);
            let what = || format!("{name}, random code {number}, {steps} steps");
            self.input(&what, &image, (size, 0), steps)?;
        }
        Ok(())
    }
}

/// A word of block 0.
fn word(image: &[u8], index: usize) -> u32 {
    u32::from_be_bytes([0, 1, 2, 3].map(|byte| image[4 * index + byte]))
}

/// The bytes of code in block 1.
fn code_bytes(image: &[u8]) -> u64 {
    4 * u64::from(word(image, 2)).min(127)
}

/// Chooses the check of each whole block anew.
fn mend(image: &mut [u8]) {
    for (number, block) in image.chunks_exact_mut(512).enumerate() {
        let (words, check) = block.split_at_mut(508);
        let (words, _) = words.as_chunks::<4>();
        let sum = words.iter().fold(0u32, |sum, word| {
            sum.wrapping_add(u32::from_be_bytes(*word))
        });
        check.copy_from_slice(&(number as u32).wrapping_sub(sum).to_be_bytes());
    }
}

/// Numbers that are the same in every run (xorshift).
struct Random(u64);

impl Random {
    fn below(&mut self, bound: u64) -> u64 {
        self.0 ^= self.0 << 13;
        self.0 ^= self.0 >> 7;
        self.0 ^= self.0 << 17;
        (self.0 >> 16) % bound
    }
}
