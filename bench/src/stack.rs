//! How much stack a call takes: it runs on a stack of its own, painted before and looked at after.

use std::arch::asm;

const WORDS: usize = 1 << 16;
const PAINT: u64 = 0xA5A5_A5A5_A5A5_A5A5;

/// Two words, so that the stack begins where the calling convention wants it.
#[derive(Clone, Copy)]
#[repr(align(16))]
struct Pair([u64; 2]);

/// The bytes from the top of the stack to the last word that `call` wrote. Words further down that
/// are set aside and never written do not count.
pub fn written_by<F: FnMut()>(mut call: F) -> usize {
    let mut stack = vec![Pair([PAINT; 2]); WORDS / 2];
    let top = stack.as_mut_ptr_range().end;
    // Sound: `enter` gets the F that it is made for, and the stack is ours, aligned and, unless the
    // call is deeper than half a megabyte, large enough; the old stack pointer waits in a register
    // that a callee restores.
    unsafe {
        asm!(
            "mov r12, rsp",
            "mov rsp, {top}",
            "call {enter}",
            "mov rsp, r12",
            top = in(reg) top,
            enter = in(reg) enter::<F>,
            in("rdi") &mut call,
            out("r12") _,
            clobber_abi("C"),
        );
    }
    let untouched = stack.iter().flat_map(|pair| pair.0).take_while(|word| *word == PAINT).count();
    (WORDS - untouched) * size_of::<u64>()
}

/// Where a call comes in, by a pointer to itself.
unsafe extern "C" fn enter<F: FnMut()>(call: *mut F) {
    (*call)();
}
