//! The machine: a datapath with the published microprogram, and the program that load left in it.

use crate::control::ControlStore;
use crate::datapath::{Datapath, Registers, State};
use crate::image::{Image, LoadRefusal};
use crate::instructions::{View, StepRefusal};
use crate::memory::Memory;
use crate::published::PUBLISHED;

/// Main1, the line at which each instruction begins.
const MAIN1: u16 = 0x100;

/// How a run went: the steps that were performed, and the refusal that stopped it.
pub struct Ran {
    pub steps: u64,
    pub stopped: Option<StepRefusal>,
}

pub struct Machine<'a> {
    datapath: Datapath<'a>,
    store: ControlStore,
    /// The pool count of the program that is loaded.
    pool: Option<u32>,
}

impl<'a> Machine<'a> {
    /// A machine over a memory, with no program.
    pub fn power(memory: Memory<'a>) -> Self {
        Machine {
            datapath: Datapath {
                memory,
                state: State::default(),
            },
            store: ControlStore::decode(&PUBLISHED)
                .expect("the published numbers are control words"),
            pool: None,
        }
    }

    /// Starts the program of an image.
    pub fn load(&mut self, image: &Image) -> Result<(), LoadRefusal> {
        let memory = &mut self.datapath.memory;
        if memory.size() != image.size {
            return Err(LoadRefusal::OtherSize);
        }
        if memory.mark() != 0 {
            return Err(LoadRefusal::Marked);
        }
        let mark = image.mark;
        let link = mark + 1 + u32::from(image.locals());
        memory.fill(mark, |address| {
            if address < mark {
                image.word(address)
            } else if address == mark {
                link
            } else {
                0
            }
        });
        let pc = image.main + 4;
        self.datapath.state = State {
            registers: Registers {
                cpp: image.cpp,
                lv: mark,
                sp: link + 1,
                pc,
                ..Registers::default()
            },
            mbr: image.byte(pc),
            mpc: MAIN1,
            ..State::default()
        };
        self.pool = Some(image.pool);
        Ok(())
    }

    /// Performs one instruction, and answers its cycles.
    pub fn step(&mut self) -> Result<u32, StepRefusal> {
        let cycles = self.view().ok_or(StepRefusal::NotLoaded)?.check()?;
        // No cycle of a checked step faults.
        let (done, _) = self.datapath.go(&self.store, cycles);
        Ok(done)
    }

    /// Performs steps until so many are done or one is refused.
    pub fn run(&mut self, steps: u64) -> Ran {
        for done in 0..steps {
            if let Err(refusal) = self.step() {
                return Ran {
                    steps: done,
                    stopped: Some(refusal),
                };
            }
        }
        Ran {
            steps,
            stopped: None,
        }
    }

    pub fn cycles(&self) -> u64 {
        self.datapath.state.counter
    }

    /// The top of the operand stack, if there is one.
    pub fn top(&self) -> Option<u32> {
        self.view()?.top()
    }

    fn view(&self) -> Option<View<'_, 'a>> {
        Some(View {
            datapath: &self.datapath,
            pool: self.pool?,
        })
    }
}
