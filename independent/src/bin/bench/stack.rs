//! How much stack a call uses, by painting one and looking for the deepest byte that lost its paint.

use crate::{measured_call, Call};
use std::arch::asm;

const PAINT: u8 = 0xa5;
const SIZE: usize = 1 << 20;

extern "C" fn nothing(_: &mut Call) -> u64 {
    0
}

/// The call's bytes of stack, the way into it not counted.
pub fn bytes_of(call: &mut Call) -> usize {
    // Once without looking, so that what is linked at the first use is not counted.
    measured_call(call);
    depth_of(measured_call, call) - depth_of(nothing, call)
}

fn depth_of(function: extern "C" fn(&mut Call) -> u64, call: &mut Call) -> usize {
    let mut painted = vec![PAINT; SIZE];
    let top = painted.as_mut_ptr_range().end as usize & !15;
    unsafe { call_on(top, function, call) };
    let untouched = painted.iter().take_while(|&&byte| byte == PAINT).count();
    SIZE - untouched
}

/// Calls the function with the stack pointer at `top`.
#[cfg(target_arch = "x86_64")]
unsafe fn call_on(top: usize, function: extern "C" fn(&mut Call) -> u64, call: &mut Call) {
    asm!(
        "mov r12, rsp",
        "mov rsp, {top}",
        "call {function}",
        "mov rsp, r12",
        top = in(reg) top,
        function = in(reg) function,
        in("rdi") call,
        out("r12") _,
        clobber_abi("C"),
    );
}

#[cfg(target_arch = "aarch64")]
unsafe fn call_on(top: usize, function: extern "C" fn(&mut Call) -> u64, call: &mut Call) {
    asm!(
        "mov x20, sp",
        "mov sp, {top}",
        "blr {function}",
        "mov sp, x20",
        top = in(reg) top,
        function = in(reg) function,
        in("x0") call,
        out("x20") _,
        clobber_abi("C"),
    );
}
