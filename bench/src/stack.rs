//! How much stack a call uses: the call runs on a stack of its own, which was painted, and what it wrote is counted.
//! No proof covers the stack.

use std::arch::asm;
use std::ffi::c_void;

const PAINT: u64 = 0x5a5a_a5a5_5a5a_a5a5;
/// 1 MiB, in words.
const WORDS: usize = 1 << 17;

pub struct Stack {
    words: Vec<u64>,
}

impl Default for Stack {
    fn default() -> Stack {
        Stack::new()
    }
}

impl Stack {
    pub fn new() -> Stack {
        Stack { words: vec![PAINT; WORDS] }
    }

    /// The bytes between the deepest word that the call wrote and the stack's top, less what an empty call writes.
    pub fn used(&mut self, call: &mut dyn FnMut()) -> usize {
        let empty = self.depth(&mut || {});
        self.depth(call).saturating_sub(empty)
    }

    fn depth(&mut self, mut call: &mut dyn FnMut()) -> usize {
        self.words.fill(PAINT);
        let top = self.words.as_mut_ptr_range().end as usize & !15;
        let argument = &raw mut call as *mut c_void;
        // The stack is this call's alone, is large enough, and the old stack pointer comes back from a register that the
        // callee keeps.
        unsafe {
            asm!(
                "mov r12, rsp",
                "mov rsp, {top}",
                "call {run}",
                "mov rsp, r12",
                top = in(reg) top,
                run = sym run,
                in("rdi") argument,
                out("r12") _,
                clobber_abi("C"),
            );
        }
        let untouched = self.words.iter().take_while(|word| **word == PAINT).count();
        8 * (self.words.len() - untouched)
    }
}

/// Calls the closure that the argument points to.
extern "C" fn run(argument: *mut c_void) {
    let call = unsafe { &mut *(argument as *mut &mut dyn FnMut()) };
    call();
}
