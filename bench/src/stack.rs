//! How much stack a call takes, by a painted stack.

use std::arch::asm;

use crate::Service;

/// More than any call here takes.
const ROOM: usize = 1 << 20;

/// The bytes of stack that a call takes, the return address included: it is
/// made on a stack of its own, filled with a byte before and looked at after.
/// A byte that the call leaves as it was is found by another filling.
pub fn taken(service: Service, file: &[u8], space: &mut [u8]) -> usize {
    let by = |paint: u8| {
        let mut stack = vec![paint; ROOM];
        // the stack grows down, and a call finds it at a multiple of 16
        let top = (stack.as_mut_ptr() as usize + ROOM) & !15;
        unsafe { call_on(top, service, file, space) };
        let end = top - stack.as_ptr() as usize;
        end - stack.iter().position(|byte| *byte != paint).unwrap_or(end)
    };
    let taken = [0xa5, 0x5a, 0x00].map(by).into_iter().max().expect("three");
    assert!(taken < ROOM);
    taken
}

/// Calls the service on another stack, from its top down.
#[inline(never)]
unsafe fn call_on(top: usize, service: Service, file: &[u8], space: &mut [u8]) -> u64 {
    let answer;
    asm!(
        "mov r12, rsp",
        "mov rsp, {top}",
        "call {service}",
        "mov rsp, r12",
        top = in(reg) top,
        service = in(reg) service,
        in("rdi") file.as_ptr(),
        in("rsi") file.len(),
        in("rdx") space.as_mut_ptr(),
        in("rcx") space.len(),
        lateout("rax") answer,
        out("r12") _,
        clobber_abi("C"),
    );
    answer
}
