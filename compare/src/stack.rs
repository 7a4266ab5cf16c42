//! How deep a call goes: it runs on a painted stack of its own, and the paint that is left is counted.

use std::arch::asm;

const PAINT: u8 = 0xc3;
const LENGTH: usize = 8 << 20;
/// Where paint may be left by chance inside a frame, so much of it in a row is not.
const RUN: usize = 1 << 16;

pub struct Stack {
    bytes: Vec<u8>,
}

impl Default for Stack {
    fn default() -> Stack {
        Stack { bytes: vec![PAINT; LENGTH] }
    }
}

/// Calls the closure that the pointer leads to.
extern "C" fn enter(closure: *mut &mut dyn FnMut()) {
    // SAFETY: `depth` passes a closure that outlives the call.
    unsafe { (*closure)() }
}

/// Calls `enter` on another stack; the old one is put back from a register that calls keep.
#[cfg(target_arch = "x86_64")]
unsafe fn enter_on(top: usize, closure: *mut &mut dyn FnMut()) {
    asm!(
        "mov r12, rsp",
        "mov rsp, {top}",
        "call {enter}",
        "mov rsp, r12",
        top = in(reg) top,
        enter = in(reg) enter as *const (),
        in("rdi") closure,
        out("r12") _,
        clobber_abi("C"),
    );
}

#[cfg(target_arch = "aarch64")]
unsafe fn enter_on(top: usize, closure: *mut &mut dyn FnMut()) {
    asm!(
        "mov x20, sp",
        "mov sp, {top}",
        "blr {enter}",
        "mov sp, x20",
        top = in(reg) top,
        enter = in(reg) enter as *const (),
        in("x0") closure,
        out("x20") _,
        clobber_abi("C"),
    );
}

impl Stack {
    /// The bytes that the closure needs below its caller's frame.
    pub fn depth(&mut self, mut closure: &mut dyn FnMut()) -> usize {
        // The closure's own first turn may still load what it calls.
        closure();
        let top = self.bytes.as_ptr_range().end as usize & !15;
        // SAFETY: the new stack is our own, large and aligned.
        unsafe { enter_on(top, &mut closure) }
        self.used()
    }

    fn used(&mut self) -> usize {
        let mut from = LENGTH;
        // Downwards past frames that may hold paint, until a long stretch of nothing else.
        while self.bytes[from.saturating_sub(RUN)..from].iter().any(|&byte| byte != PAINT) {
            let below = from.saturating_sub(RUN);
            let touched = self.bytes[below..from].iter().position(|&byte| byte != PAINT);
            from = below + touched.unwrap_or(0);
        }
        self.bytes[from..].fill(PAINT);
        LENGTH - from
    }
}

#[cfg(test)]
mod tests {
    use super::*;
    use std::hint::black_box;

    fn deep(n: usize) -> u8 {
        let room = black_box([n as u8; 1000]);
        match n {
            0 => room[0],
            _ => black_box(deep(n - 1)) ^ room[n % 1000],
        }
    }

    #[test]
    fn depth_is_seen() {
        let mut stack = Stack::default();
        let nothing = stack.depth(&mut || {});
        assert!(nothing < 200, "{nothing}");
        let ten = stack.depth(&mut || drop(black_box(Box::new(deep(10)))));
        assert!((11_000..20_000).contains(&ten), "{ten}");
        let thousand = stack.depth(&mut || drop(black_box(Box::new(deep(1000)))));
        assert!((1_001_000..1_500_000).contains(&thousand), "{thousand}");
        assert_eq!(stack.depth(&mut || {}), nothing);
    }
}
