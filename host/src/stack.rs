//! How much stack a call of the verified code takes. It runs on a stack of its own, which
//! was painted; the lowest byte that has changed tells. Compiled only where an archive was
//! linked, which is for x86-64 alone.

#[cfg(benchcalls_library)]
use crate::large::Batch;
#[cfg(healdrip_library)]
use crate::library::healdrip_text_check;
#[cfg(benchcalls_library)]
use crate::library::{benchcalls_batch, kind_number};
use std::arch::asm;

/// In bytes, twice what a call may take.
const ROOM: usize = 2_400_000;
/// The stack's end is a multiple of this, so that the figure is the same in each run.
const ALIGNMENT: usize = 4_096;
/// A byte that is written as it was painted looks untouched: two paints are tried.
const PAINTS: [u8; 2] = [0x5a, 0xa5];
/// Bytes of an argument on the stack.
const WORD: usize = 8;

/// A C call and its arguments: the first six in registers, the others on the stack.
struct Call<'a> {
    function: *const (),
    registers: [usize; 6],
    pushed: &'a [usize],
}

/// Bytes of stack that the text check touches, the return address among them.
#[cfg(healdrip_library)]
pub fn of_text_check(text: &[u8], report: &mut [u8]) -> usize {
    let report_start = report.as_mut_ptr() as usize;
    let registers = [text.as_ptr() as usize, text.len(), report_start, report.len(), 0, 0];
    let call = Call { function: healdrip_text_check as *const (), registers, pushed: &[] };
    // SAFETY: these are the arguments of the call, and both slices are valid for their lengths.
    unsafe { of_call(&call) }
}

/// Bytes of stack that a batch touches, its arguments there and the return address among
/// them.
#[cfg(benchcalls_library)]
pub fn of_batch(batch: &Batch, out: &mut [i64]) -> usize {
    let (nodes, edges, addresses) = (&batch.graph.nodes, &batch.graph.edges, &batch.addresses);
    let [root, leaf] = [batch.graph.root, batch.graph.leaf].map(|row| row as usize);
    let registers =
        [nodes.as_ptr() as usize, nodes.len(), edges.as_ptr() as usize, edges.len(), root, leaf];
    let out_start = out.as_mut_ptr() as usize;
    let kind = kind_number(batch.graph.kind) as usize;
    let pushed = &[addresses.as_ptr() as usize, addresses.len(), kind, out_start, out.len()];
    let call = Call { function: benchcalls_batch as *const (), registers, pushed };
    // SAFETY: these are the arguments of the call, and every slice is valid for its length.
    unsafe { of_call(&call) }
}

/// Bytes of stack that a call touches.
///
/// # Safety
///
/// The call may be made with its arguments, more than once.
unsafe fn of_call(call: &Call) -> usize {
    // SAFETY: as for this function.
    PAINTS.map(|paint| unsafe { painted(paint, call) }).into_iter().max().unwrap_or(0)
}

/// The same by one paint.
///
/// # Safety
///
/// The call may be made with its arguments.
unsafe fn painted(paint: u8, call: &Call) -> usize {
    let mut stack = vec![paint; ROOM + ALIGNMENT];
    let length = ROOM + stack[ROOM..].as_ptr().align_offset(ALIGNMENT);
    // At a call the stack pointer is a multiple of two words.
    let start = length - WORD * call.pushed.len().next_multiple_of(2);
    for (word, argument) in stack[start..length].chunks_mut(WORD).zip(call.pushed) {
        word.copy_from_slice(&argument.to_ne_bytes());
    }
    let top = stack[..start].as_mut_ptr_range().end;
    let [rdi, rsi, rdx, rcx, r8, r9] = call.registers;
    // SAFETY: the call may be made, and the new stack is valid for some ROOM bytes. The call
    // keeps r12, in which the old stack pointer waits.
    unsafe {
        asm!(
            "xchg rsp, r12",
            "call {function}",
            "mov rsp, r12",
            function = in(reg) call.function,
            inout("r12") top => _,
            inout("rdi") rdi => _,
            inout("rsi") rsi => _,
            inout("rdx") rdx => _,
            inout("rcx") rcx => _,
            inout("r8") r8 => _,
            inout("r9") r9 => _,
            clobber_abi("sysv64"),
        );
    }
    let untouched = stack[..length].iter().take_while(|&&byte| byte == paint).count();
    assert!(untouched > 0, "the call needs a longer stack");
    length - untouched
}
