//! The stack that a call takes: the stack below is filled with one byte before the call, and afterwards searched from
//! its far end for the first byte that is another.
use crate::Call;
use std::arch::asm;

const PAINT: u8 = 0xA5;
/// How much is filled.
const FILLED: usize = 256 * 1024;

/// How far below the stack pointer a call writes. Never a leaf, so that no red zone lies below the pointer.
#[inline(never)]
fn touched(call: &Call, buffer: &mut [u8]) -> usize {
    let here: usize;
    let left: usize;
    // SAFETY: the thread's stack has room for FILLED bytes below the stack pointer, and nothing else uses them: no
    // signal handler runs on this stack.
    unsafe {
        asm!("mov {here}, rsp", here = out(reg) here, options(nomem, nostack, preserves_flags));
        asm!(
            "rep stosb",
            inout("rcx") FILLED => _,
            inout("rdi") here - FILLED => _,
            in("al") PAINT,
            options(nostack)
        );
    }
    call(buffer);
    // SAFETY: the same bytes, only read.
    unsafe {
        asm!(
            "repe scasb",
            inout("rcx") FILLED => left,
            inout("rdi") here - FILLED => _,
            in("al") PAINT,
            options(nostack, readonly)
        );
    }
    left + 1
}

fn on_own_stack(call: &Call) -> usize {
    let mut buffer = vec![0; 35_459];
    std::thread::scope(|scope| {
        let builder = std::thread::Builder::new().stack_size(4 * FILLED);
        builder.spawn_scoped(scope, || touched(call, &mut buffer)).expect("a thread").join().expect("no panic")
    })
}

/// The bytes of stack that a call takes beyond an empty one.
pub fn depth(call: &Call) -> usize {
    on_own_stack(call).saturating_sub(on_own_stack(&|_| ()))
}
