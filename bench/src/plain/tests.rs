use crate::control::{ControlRefusal, ControlStore, ControlWord};
use crate::datapath::{Access, Datapath, Fault, Fetch, Port, State};
use crate::memory::{AccessRefusal, Memory};
use crate::published::PUBLISHED;
use crate::{Report, run};

const SUMMING: &[u8] = include_bytes!("../../../images/summing");

/// Adds up each block anew.
fn mend(image: &mut [u8]) {
    for (number, block) in image.chunks_exact_mut(512).enumerate() {
        let (words, _) = block.as_chunks_mut::<4>();
        let (check, words) = words.split_last_mut().expect("a block has 128 words");
        let sum = words.iter().fold(0u32, |sum, word| {
            sum.wrapping_add(u32::from_be_bytes(*word))
        });
        *check = (number as u32).wrapping_sub(sum).to_be_bytes();
    }
}

/// The image of a main with this code, with 2 locals, a pool of one word that holds 0, and a memory of 32 words.
fn image(code: &[u8]) -> Vec<u8> {
    let code_words = (4 + code.len()).div_ceil(4) as u32;
    let mut image = vec![0; 1024];
    for (index, number) in [2, 32, code_words + 1, code_words, 1, 0]
        .into_iter()
        .enumerate()
    {
        image[4 * index..4 * index + 4].copy_from_slice(&u32::to_be_bytes(number));
    }
    image[512..516].copy_from_slice(&[0, 1, 0, 2]);
    image[516..516 + code.len()].copy_from_slice(code);
    mend(&mut image);
    image
}

fn run_code(code: &[u8]) -> Report {
    run(&image(code), &mut [0; 128], 1000)
}

fn report(end: u32, steps: u64, cycles: u64, top: Option<i32>) -> Report {
    Report {
        end,
        steps,
        cycles,
        top,
    }
}

#[test]
fn the_summing_image() {
    let mut memory = [0; 128];
    assert_eq!(
        run(SUMMING, &mut memory, 1_000_000),
        report(38, 28, 177, Some(6))
    );
}

#[test]
fn a_run_stops_where_its_steps_are_done() {
    let mut memory = [0; 128];
    assert_eq!(run(SUMMING, &mut memory, 0), report(0, 0, 0, None));
    assert_eq!(run(SUMMING, &mut memory, 1), report(0, 1, 4, Some(3)));
    // The write of BIPUSH's word is still under way.
    assert_eq!(memory[4 * 14..4 * 15], [0; 4]);
    assert_eq!(run(SUMMING, &mut memory, 2), report(0, 2, 11, None));
    assert_eq!(memory[4 * 14..4 * 15], [0, 0, 0, 3]);
}

#[test]
fn arithmetic() {
    // BIPUSH -7, BIPUSH 5, ISUB, DUP, IRETURN
    let end = run_code(&[0x10, 0xF9, 0x10, 5, 0x64, 0x59, 0xAC]);
    assert_eq!(end, report(38, 4, 15, Some(-12)));
    // BIPUSH 12, BIPUSH 10, SWAP, IAND, IRETURN
    let end = run_code(&[0x10, 12, 0x10, 10, 0x5F, 0x7E, 0xAC]);
    assert_eq!(end, report(38, 4, 19, Some(8)));
}

#[test]
fn a_call_and_its_return() {
    // The pool word is main's own address: main calls itself, until there is no room.
    let end = run_code(&[0x10, 3, 0xB6, 0, 0]);
    assert_eq!(end.end, 36);
    // BIPUSH 1, BIPUSH 9, INVOKEVIRTUAL 0, IRETURN in main; the method at 16 has 2 params: ILOAD 1, IRETURN.
    let code = [
        0x10, 1, 0x10, 9, 0xB6, 0, 0, 0xAC, 0, 0, 0, 0, 0, 2, 0, 0, 0x15, 1, 0xAC,
    ];
    let mut image = image(&code);
    let pool = 512 + 4 * (4 + code.len()).div_ceil(4);
    image[pool + 3] = 16;
    mend(&mut image);
    assert_eq!(
        run(&image, &mut [0; 128], 1000),
        report(38, 5, 4 + 4 + 23 + 6 + 9, Some(9))
    );
}

#[test]
fn refused_steps() {
    // 30: ILOAD in the last byte of code, behind seven NOPs.
    let mut last = image(&[0]);
    last[512 + 11] = 0x15;
    mend(&mut last);
    assert_eq!(run(&last, &mut [0; 128], 1000), report(30, 7, 14, None));
    // 31, also behind WIDE.
    assert_eq!(run_code(&[0x01]).end, 31);
    assert_eq!(run_code(&[0xC4, 0x84, 1, 0]).end, 31);
    assert_eq!(run_code(&[0x00, 0xC4]).end, 31);
    // 34: the pool has one word.
    assert_eq!(run_code(&[0x13, 0, 1]), report(34, 0, 0, None));
    // 32: DUP, and ISUB with one word.
    assert_eq!(run_code(&[0x59]), report(32, 0, 0, None));
    assert_eq!(run_code(&[0x10, 7, 0x64]), report(32, 1, 4, Some(7)));
    // 33: the frame has the variables 1 and 2.
    assert_eq!(run_code(&[0x15, 0]).end, 33);
    assert_eq!(run_code(&[0x15, 3]).end, 33);
    assert_eq!(
        run_code(&[0xC4, 0x15, 0, 2, 0x15, 3]),
        report(33, 1, 10, Some(0))
    );
    // 36: DUP until the memory is full.
    assert_eq!(run_code(&[0x10, 7, 0x59, 0xA7, 0xFF, 0xFF]).end, 36);
    // 37: a branch below 0.
    assert_eq!(run_code(&[0xA7, 0xFF, 0xF0]), report(37, 0, 0, None));
}

#[test]
fn refused_loads() {
    let refused = |image: &[u8], size: usize| run(image, &mut vec![0; size], 1000);
    assert_eq!(refused(&SUMMING[..1023], 128), report(20, 0, 0, None));
    assert_eq!(refused(SUMMING, 124).end, 25);
    assert_eq!(refused(SUMMING, 127).end, 25);
    assert_eq!(refused(SUMMING, 0).end, 25);
    let damaged = |index: usize, byte: u8, mended: bool| {
        let mut image = SUMMING.to_vec();
        image[index] = byte;
        if mended {
            mend(&mut image);
        }
        refused(&image, 128).end
    };
    assert_eq!(damaged(600, 1, false), 21);
    assert_eq!(damaged(3, 3, true), 22);
    assert_eq!(damaged(7, 15, true), 23);
    assert_eq!(damaged(11, 0, true), 23);
    assert_eq!(damaged(19, 1, true), 23);
    assert_eq!(damaged(23, 32, true), 23);
    assert_eq!(damaged(513, 2, true), 23);
    assert_eq!(damaged(24, 1, true), 24);
    assert_eq!(damaged(600, 1, true), 24);
}

#[test]
fn control_words() {
    assert_eq!(ControlWord::decode(1 << 36), Err(ControlRefusal::TooWide));
    assert_eq!(
        ControlWord::decode(0xC0_0060),
        Err(ControlRefusal::TwoShifts)
    );
    assert_eq!(ControlWord::decode(0x60), Err(ControlRefusal::TwoAccesses));
}

#[test]
fn the_fault_of_a_fetch_comes_first() {
    let mut buffer = [0; 64];
    let store = ControlStore::decode(&PUBLISHED).expect("the published numbers are control words");
    let state = State {
        access: Some(Access::Read {
            address: 16,
            mpc: 1,
        }),
        fetch: Some(Fetch {
            address: 65,
            mpc: 2,
        }),
        ..State::default()
    };
    let mut datapath = Datapath {
        memory: Memory::over(&mut buffer),
        state,
    };
    let fault = Fault {
        cause: AccessRefusal::OutOfRange,
        address: 16,
        port: Port::Fetch,
        mpc: 2,
    };
    assert_eq!(datapath.go(&store, 5), (0, Some(fault)));
    assert_eq!(datapath.state, state);
}
