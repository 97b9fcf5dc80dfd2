//! How deep the stack goes below a call: the stack is painted, the call is made, and the lowest byte that is no longer
//! as painted is looked for.

use std::arch::asm;
use std::hint::black_box;

/// Bytes of stack below a call, and the same with the frame of the caller: there lie the structs that are handed over
/// by value and the answer.
#[derive(Clone, Copy, Debug, Default)]
pub struct Depth {
    pub own: usize,
    pub with_caller: usize,
}

const PAINTED: usize = 64 * 1024;
const PAINT: u8 = 0xA5;

#[inline(never)]
pub fn depth<State: Clone, Answer>(state: &State, call: &impl Fn(&mut State) -> Answer) -> Depth {
    // What the loader and the allocator do once is not the operation's.
    called(&mut state.clone(), call);
    let mut state = state.clone();
    let with_caller_from = stack_pointer();
    let lowest = paint();
    let own_from = called(&mut state, call);
    let touched = lowest_touched(lowest);
    // Registers are saved eight bytes at a time; the lowest of them may happen to be as painted. Where a call puts its
    // return address into a register, an operation may need no stack at all.
    let whole = |from: usize| from.saturating_sub(touched).next_multiple_of(8);
    Depth {
        own: whole(own_from),
        with_caller: whole(with_caller_from),
    }
}

/// Says where the stack stood when the call was made.
#[inline(never)]
fn called<State, Answer>(state: &mut State, call: &impl Fn(&mut State) -> Answer) -> usize {
    let from = stack_pointer();
    black_box(&call(black_box(state)));
    from
}

#[inline(always)]
fn stack_pointer() -> usize {
    let pointer: usize;
    #[cfg(target_arch = "x86_64")]
    // SAFETY: a register is read.
    unsafe {
        asm!("mov {}, rsp", out(reg) pointer, options(nomem, nostack))
    };
    #[cfg(target_arch = "aarch64")]
    // SAFETY: a register is read.
    unsafe {
        asm!("mov {}, sp", out(reg) pointer, options(nomem, nostack))
    };
    pointer
}

/// Says where the painted part begins.
#[inline(never)]
fn paint() -> usize {
    let mut painted = [PAINT; PAINTED];
    black_box(&mut painted).as_ptr() as usize
}

/// Part of the function that asks, since a frame of its own would lie where it looks.
#[inline(always)]
fn lowest_touched(from: usize) -> usize {
    let mut place = from;
    // SAFETY: the stack was as deep as this before, and nothing has given it back to the system.
    while unsafe { std::ptr::read_volatile(place as *const u8) } == PAINT {
        place += 1;
    }
    place
}
