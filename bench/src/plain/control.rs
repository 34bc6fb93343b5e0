//! Control words, and the control store.

/// The number of control words in the store.
pub const STORE_SIZE: usize = 512;

/// What drives the B bus.
#[derive(Clone, Copy, Debug, PartialEq, Eq)]
pub enum Source {
    Mdr,
    Pc,
    Mbr,
    Mbru,
    Sp,
    Lv,
    Cpp,
    Tos,
    Opc,
    Nothing,
}

#[derive(Clone, Copy, Debug, PartialEq, Eq)]
pub enum Function {
    And,
    Or,
    NotB,
    Sum,
}

/// The signals of the ALU.
#[derive(Clone, Copy, Debug, PartialEq, Eq)]
pub struct AluSignals {
    pub function: Function,
    pub ena: bool,
    pub enb: bool,
    pub inva: bool,
    pub inc: bool,
}

#[derive(Clone, Copy, Debug, PartialEq, Eq)]
pub enum Shift {
    Keep,
    /// SLL8
    LeftByByte,
    /// SRA1
    RightByBit,
}

/// The registers that are loaded from the C bus.
#[derive(Clone, Copy, Debug, PartialEq, Eq)]
pub struct CBits {
    pub h: bool,
    pub opc: bool,
    pub tos: bool,
    pub cpp: bool,
    pub lv: bool,
    pub sp: bool,
    pub pc: bool,
    pub mdr: bool,
    pub mar: bool,
}

/// The read or write that a control word begins.
#[derive(Clone, Copy, Debug, PartialEq, Eq)]
pub enum Data {
    Nothing,
    Read,
    Write,
}

#[derive(Clone, Copy, Debug, PartialEq, Eq)]
pub struct ControlWord {
    pub next: u16,
    pub jmpc: bool,
    pub jamn: bool,
    pub jamz: bool,
    pub shift: Shift,
    pub alu: AluSignals,
    pub c: CBits,
    pub data: Data,
    pub fetch: bool,
    pub b: Source,
}

/// Why a number is no control word.
#[derive(Clone, Copy, Debug, PartialEq, Eq)]
pub enum ControlRefusal {
    /// 7
    TooWide,
    /// 8
    TwoShifts,
    /// 9
    TwoAccesses,
}

impl ControlWord {
    pub fn decode(number: u64) -> Result<Self, ControlRefusal> {
        if number >= 1 << 36 {
            return Err(ControlRefusal::TooWide);
        }
        let bit = |index: u32| number >> index & 1 == 1;
        let shift = match (bit(23), bit(22)) {
            (true, true) => return Err(ControlRefusal::TwoShifts),
            (true, false) => Shift::LeftByByte,
            (false, true) => Shift::RightByBit,
            (false, false) => Shift::Keep,
        };
        let data = match (bit(6), bit(5)) {
            (true, true) => return Err(ControlRefusal::TwoAccesses),
            (true, false) => Data::Write,
            (false, true) => Data::Read,
            (false, false) => Data::Nothing,
        };
        let function = match (bit(21), bit(20)) {
            (false, false) => Function::And,
            (false, true) => Function::Or,
            (true, false) => Function::NotB,
            (true, true) => Function::Sum,
        };
        let b = match number & 0xF {
            0 => Source::Mdr,
            1 => Source::Pc,
            2 => Source::Mbr,
            3 => Source::Mbru,
            4 => Source::Sp,
            5 => Source::Lv,
            6 => Source::Cpp,
            7 => Source::Tos,
            8 => Source::Opc,
            _ => Source::Nothing,
        };
        Ok(ControlWord {
            next: (number >> 27) as u16,
            jmpc: bit(26),
            jamn: bit(25),
            jamz: bit(24),
            shift,
            alu: AluSignals {
                function,
                ena: bit(19),
                enb: bit(18),
                inva: bit(17),
                inc: bit(16),
            },
            c: CBits {
                h: bit(15),
                opc: bit(14),
                tos: bit(13),
                cpp: bit(12),
                lv: bit(11),
                sp: bit(10),
                pc: bit(9),
                mdr: bit(8),
                mar: bit(7),
            },
            data,
            fetch: bit(4),
            b,
        })
    }

    /// The address of the next control word, from MBR and the flags.
    pub fn successor(&self, mbr: u8, n: bool, z: bool) -> u16 {
        let mut next = self.next;
        if self.jmpc {
            next |= u16::from(mbr);
        }
        if self.jamn && n || self.jamz && z {
            next |= 0x100;
        }
        next
    }
}

/// The control store: its words are decoded once, when it is made.
pub struct ControlStore {
    words: [ControlWord; STORE_SIZE],
}

impl ControlStore {
    /// A store of these numbers, or the refusal of the first that is no control word.
    pub fn decode(numbers: &[u64; STORE_SIZE]) -> Result<Self, ControlRefusal> {
        let mut words = [ControlWord::decode(0)?; STORE_SIZE];
        for (word, &number) in words.iter_mut().zip(numbers) {
            *word = ControlWord::decode(number)?;
        }
        Ok(ControlStore { words })
    }

    pub fn word(&self, address: u16) -> &ControlWord {
        &self.words[usize::from(address)]
    }
}
