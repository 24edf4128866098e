//! How a call of the Rust that does not return is left: it runs on a stack of its own, and its wait switches back to the
//! driver's. What the driver must keep across a call is saved; all else of the call is forgotten, as when a core loses power.

use std::sync::atomic::{AtomicPtr, Ordering::Relaxed};

#[cfg(target_arch = "x86_64")]
std::arch::global_asm!(
    r#"
    .text
    .globl bench_run_apart
bench_run_apart:
    push rbx
    push rbp
    push r12
    push r13
    push r14
    push r15
    mov [rip + bench_kept_stack], rsp
    mov rsp, rdi
    mov rdi, rdx
    call rsi
    .globl bench_leave
bench_leave:
    mov rsp, [rip + bench_kept_stack]
    pop r15
    pop r14
    pop r13
    pop r12
    pop rbp
    pop rbx
    ret
    .bss
    .balign 8
bench_kept_stack:
    .quad 0
    .text
"#
);

#[cfg(target_arch = "aarch64")]
std::arch::global_asm!(
    r#"
    .text
    .globl bench_run_apart
bench_run_apart:
    sub sp, sp, #160
    stp x19, x20, [sp]
    stp x21, x22, [sp, #16]
    stp x23, x24, [sp, #32]
    stp x25, x26, [sp, #48]
    stp x27, x28, [sp, #64]
    stp x29, x30, [sp, #80]
    stp d8, d9, [sp, #96]
    stp d10, d11, [sp, #112]
    stp d12, d13, [sp, #128]
    stp d14, d15, [sp, #144]
    adrp x9, bench_kept_stack
    mov x10, sp
    str x10, [x9, :lo12:bench_kept_stack]
    mov sp, x0
    mov x0, x2
    blr x1
    .globl bench_leave
bench_leave:
    adrp x9, bench_kept_stack
    ldr x10, [x9, :lo12:bench_kept_stack]
    mov sp, x10
    ldp x19, x20, [sp]
    ldp x21, x22, [sp, #16]
    ldp x23, x24, [sp, #32]
    ldp x25, x26, [sp, #48]
    ldp x27, x28, [sp, #64]
    ldp x29, x30, [sp, #80]
    ldp d8, d9, [sp, #96]
    ldp d10, d11, [sp, #112]
    ldp d12, d13, [sp, #128]
    ldp d14, d15, [sp, #144]
    add sp, sp, #160
    ret
    .bss
    .balign 8
bench_kept_stack:
    .quad 0
    .text
"#
);

unsafe extern "C" {
    fn bench_run_apart(stack: *mut u8, run: extern "C" fn(*mut u8), argument: *mut u8);
    fn bench_leave();
}

const STACK_WORDS: usize = 8192;
static mut STACK: [u128; STACK_WORDS] = [0; STACK_WORDS];

/// What a wait does. It is set by whoever makes a call that waits.
static ON_WAIT: AtomicPtr<()> = AtomicPtr::new(std::ptr::null_mut());

pub fn set_on_wait(on_wait: fn()) {
    ON_WAIT.store(on_wait as *mut (), Relaxed);
}

/// The stand-in for `wfi`.
fn wait() {
    // only functions are stored there, and one is before any wait
    unsafe { std::mem::transmute::<*mut (), fn()>(ON_WAIT.load(Relaxed))() }
}

/// A wait that is over at once.
pub fn go_on() {}

fn leave() {
    unsafe { bench_leave() }
}

pub fn prepare() {
    set_on_wait(go_on);
    let _ = firmware::aarch64::WAIT.set(wait);
}

/// Makes a call whose wait does not return. Where it returns without a wait, that is as good.
#[inline(always)]
pub fn left<F: FnMut()>(mut call: F) {
    extern "C" fn run<F: FnMut()>(call: *mut u8) {
        // it is the closure below, on the driver's stack
        unsafe { (*call.cast::<F>())() }
    }
    set_on_wait(leave);
    let call: *mut F = &mut call;
    // one call at a time is left, so that its stack is free
    unsafe {
        let stack = (&raw mut STACK).cast::<u8>().add(STACK_WORDS * 16);
        bench_run_apart(stack, run::<F>, call.cast());
    }
    set_on_wait(go_on);
}
