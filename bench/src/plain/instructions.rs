//! The table of the instructions, and the checks of a step.

use crate::datapath::{Access, Datapath, byte_in};

/// Why a step is refused.
#[derive(Clone, Copy, Debug, PartialEq, Eq)]
pub enum StepRefusal {
    OutsideCode,
    UnknownOpcode,
    TooShallow,
    NoVariable,
    NotInPool,
    WrongMethod,
    NoRoom,
    NextOutside,
    End,
    NotLoaded,
}

impl StepRefusal {
    pub fn number(self) -> u32 {
        match self {
            StepRefusal::OutsideCode => 30,
            StepRefusal::UnknownOpcode => 31,
            StepRefusal::TooShallow => 32,
            StepRefusal::NoVariable => 33,
            StepRefusal::NotInPool => 34,
            StepRefusal::WrongMethod => 35,
            StepRefusal::NoRoom => 36,
            StepRefusal::NextOutside => 37,
            StepRefusal::End => 38,
            StepRefusal::NotLoaded => 39,
        }
    }
}

/// Where an instruction names a variable.
#[derive(Clone, Copy)]
enum Variable {
    None,
    /// In the byte behind the opcode.
    Byte,
    /// In the two bytes behind WIDE's second opcode.
    Short,
}

/// What becomes of SP.
#[derive(Clone, Copy)]
enum Stack {
    Same,
    Push,
    Pop,
    PopTwo,
    Enter,
    Leave,
}

/// When a branch is taken.
#[derive(Clone, Copy)]
enum Condition {
    Always,
    Zero,
    Negative,
    Equal,
}

/// Where the next instruction is.
#[derive(Clone, Copy)]
enum Way {
    On,
    /// A branch, with its cycles where it is taken.
    Branch(Condition, u8),
    Call,
    Return,
}

/// A row of the table. A call needs its method's params as depth.
#[derive(Clone, Copy)]
struct Row {
    bytes: u8,
    /// Whether an index or disp of the pool stands behind the opcode.
    pool: bool,
    depth: u8,
    variable: Variable,
    stack: Stack,
    way: Way,
    cycles: u8,
}

const ILOAD: u8 = 0x15;
const ISTORE: u8 = 0x36;
const WIDE: u8 = 0xC4;

const WIDE_ILOAD: Row = Row::new(4, 0, Stack::Push, 10).variable(Variable::Short);
const WIDE_ISTORE: Row = Row::new(4, 1, Stack::Pop, 11).variable(Variable::Short);

/// The instructions of one opcode, by the opcode.
static ROWS: [Option<Row>; 256] = {
    use Condition::{Always, Equal, Negative, Zero};
    use Stack::{Enter, Leave, Pop, PopTwo, Push, Same};
    use Way::{Branch, Call, Return};
    let mut rows = [None; 256];
    rows[0x00] = Some(Row::new(1, 0, Same, 2)); // NOP
    rows[0x10] = Some(Row::new(2, 0, Push, 4)); // BIPUSH
    rows[0x13] = Some(Row::new(3, 0, Push, 8).pool()); // LDC_W
    rows[ILOAD as usize] = Some(Row::new(2, 0, Push, 6).variable(Variable::Byte));
    rows[ISTORE as usize] = Some(Row::new(2, 1, Pop, 7).variable(Variable::Byte));
    rows[0x57] = Some(Row::new(1, 1, Pop, 4)); // POP
    rows[0x59] = Some(Row::new(1, 1, Push, 3)); // DUP
    rows[0x5F] = Some(Row::new(1, 2, Same, 7)); // SWAP
    rows[0x60] = Some(Row::new(1, 2, Pop, 4)); // IADD
    rows[0x64] = Some(Row::new(1, 2, Pop, 4)); // ISUB
    rows[0x7E] = Some(Row::new(1, 2, Pop, 4)); // IAND
    rows[0x80] = Some(Row::new(1, 2, Pop, 4)); // IOR
    rows[0x84] = Some(Row::new(3, 0, Same, 7).variable(Variable::Byte)); // IINC
    rows[0x99] = Some(Row::new(3, 1, Pop, 8).way(Branch(Zero, 11))); // IFEQ
    rows[0x9B] = Some(Row::new(3, 1, Pop, 8).way(Branch(Negative, 11))); // IFLT
    rows[0x9F] = Some(Row::new(3, 2, PopTwo, 10).way(Branch(Equal, 13))); // IF_ICMPEQ
    rows[0xA7] = Some(Row::new(3, 0, Same, 7).way(Branch(Always, 7))); // GOTO
    rows[0xAC] = Some(Row::new(1, 1, Leave, 9).way(Return)); // IRETURN
    rows[0xB6] = Some(Row::new(3, 0, Enter, 23).pool().way(Call)); // INVOKEVIRTUAL
    rows
};

impl Row {
    const fn new(bytes: u8, depth: u8, stack: Stack, cycles: u8) -> Self {
        Row {
            bytes,
            pool: false,
            depth,
            variable: Variable::None,
            stack,
            way: Way::On,
            cycles,
        }
    }

    const fn pool(self) -> Self {
        Row { pool: true, ..self }
    }

    const fn variable(self, variable: Variable) -> Self {
        Row { variable, ..self }
    }

    const fn way(self, way: Way) -> Self {
        Row { way, ..self }
    }
}

/// A method that is called: its params and locals, and where its code begins.
struct Method {
    params: u64,
    locals: u64,
    code: u64,
}

/// The instruction machine as a datapath shows it, with a write under way counted as done. Sums are made in 64 bits,
/// so that none wraps.
pub struct View<'a, 'm> {
    pub datapath: &'a Datapath<'m>,
    /// The pool count.
    pub pool: u32,
}

impl View<'_, '_> {
    /// The top of the operand stack, if its depth is at least 1.
    pub fn top(&self) -> Option<u32> {
        let sp = self.sp();
        self.is_deep(sp, 1).then(|| self.word(sp))
    }

    /// How many cycles the instruction at PC takes, or the first check that refuses it.
    pub fn check(&self) -> Result<u32, StepRefusal> {
        let pc = self.pc();
        let sp = self.sp();
        let row = self.row(pc)?;

        let next = pc + u64::from(row.bytes);
        if next > self.code_end() {
            return Err(StepRefusal::OutsideCode);
        }
        if row.pool && self.short(pc + 1) >= u64::from(self.pool) {
            return Err(StepRefusal::NotInPool);
        }
        let method = match row.way {
            Way::Call => Some(self.method(self.short(pc + 1))?),
            _ => None,
        };
        let depth = match &method {
            Some(method) => method.params,
            None => u64::from(row.depth),
        };
        if !self.is_deep(sp, depth) {
            return Err(StepRefusal::TooShallow);
        }
        let has_variable = match row.variable {
            Variable::None => true,
            Variable::Byte => self.is_variable(u64::from(self.byte(pc + 1))),
            Variable::Short => self.is_variable(self.short(pc + 2)),
        };
        if !has_variable {
            return Err(StepRefusal::NoVariable);
        }
        if matches!(row.way, Way::Return) && self.lv() == self.mark() {
            return Err(StepRefusal::End);
        }
        let new_sp = match (row.stack, &method) {
            (Stack::Enter, Some(method)) => sp + method.locals + 2,
            (Stack::Same | Stack::Enter, _) => sp,
            (Stack::Push, _) => sp + 1,
            (Stack::Pop, _) => sp - 1,
            (Stack::PopTwo, _) => sp - 2,
            (Stack::Leave, _) => self.lv(),
        };
        if new_sp >= u64::from(self.datapath.memory.size()) {
            return Err(StepRefusal::NoRoom);
        }
        let (next, cycles) = match (row.way, &method) {
            (Way::Branch(condition, taken), _) if self.is_taken(condition, sp) => {
                (self.target(pc), taken)
            }
            (Way::Call, Some(method)) => (Some(method.code), row.cycles),
            (Way::Return, _) => (Some(u64::from(self.word(self.link()))), row.cycles),
            _ => (Some(next), row.cycles),
        };
        match next {
            Some(next) if next < self.code_end() => Ok(u32::from(cycles)),
            _ => Err(StepRefusal::NextOutside),
        }
    }

    /// The row of the instruction at PC.
    fn row(&self, pc: u64) -> Result<&'static Row, StepRefusal> {
        let opcode = self.byte(pc);
        if opcode == WIDE {
            return self.wide(pc);
        }
        ROWS[usize::from(opcode)]
            .as_ref()
            .ok_or(StepRefusal::UnknownOpcode)
    }

    fn wide(&self, pc: u64) -> Result<&'static Row, StepRefusal> {
        if pc + 1 >= self.code_end() {
            return Err(StepRefusal::OutsideCode);
        }
        match self.byte(pc + 1) {
            ILOAD => Ok(&WIDE_ILOAD),
            ISTORE => Ok(&WIDE_ISTORE),
            _ => Err(StepRefusal::UnknownOpcode),
        }
    }

    /// The method that a call's disp names.
    fn method(&self, disp: u64) -> Result<Method, StepRefusal> {
        let address = u64::from(self.word(u64::from(self.datapath.state.registers.cpp) + disp));
        let code = address + 4;
        if code >= self.code_end() {
            return Err(StepRefusal::WrongMethod);
        }
        let params = self.short(address);
        if params == 0 {
            return Err(StepRefusal::WrongMethod);
        }
        Ok(Method {
            params,
            locals: self.short(address + 2),
            code,
        })
    }

    fn is_taken(&self, condition: Condition, sp: u64) -> bool {
        let top = self.word(sp);
        match condition {
            Condition::Always => true,
            Condition::Zero => top == 0,
            Condition::Negative => top.cast_signed() < 0,
            Condition::Equal => self.word(sp - 1) == top,
        }
    }

    /// A branch's target; none below 0.
    fn target(&self, pc: u64) -> Option<u64> {
        let offset = (self.short(pc + 1) as u16).cast_signed();
        pc.checked_add_signed(i64::from(offset))
    }

    fn pc(&self) -> u64 {
        u64::from(self.datapath.state.registers.pc)
    }

    fn sp(&self) -> u64 {
        u64::from(self.datapath.state.registers.sp)
    }

    fn lv(&self) -> u64 {
        u64::from(self.datapath.state.registers.lv)
    }

    fn mark(&self) -> u64 {
        u64::from(self.datapath.memory.mark())
    }

    /// Code is the bytes from 0 up, below this address.
    fn code_end(&self) -> u64 {
        4 * self.mark()
    }

    fn link(&self) -> u64 {
        u64::from(self.word(self.lv()))
    }

    /// The depth of the operand stack is at least this.
    fn is_deep(&self, sp: u64, depth: u64) -> bool {
        let base = self.link() + 1;
        base + depth <= sp
    }

    fn is_variable(&self, number: u64) -> bool {
        number >= 1 && self.lv() + number < self.link()
    }

    /// The word at an address; 0 where there is none.
    fn word(&self, address: u64) -> u32 {
        let Ok(address) = u32::try_from(address) else {
            return 0;
        };
        let Ok(held) = self.datapath.memory.read(address) else {
            return 0;
        };
        match self.datapath.state.access {
            Some(Access::Write {
                address: written,
                word,
                ..
            }) if written == address => word,
            _ => held,
        }
    }

    fn byte(&self, address: u64) -> u8 {
        byte_in(self.word(address / 4), (address % 4) as u32)
    }

    /// The unsigned number in two bytes.
    fn short(&self, address: u64) -> u64 {
        u64::from(u16::from_be_bytes([
            self.byte(address),
            self.byte(address + 1),
        ]))
    }
}
