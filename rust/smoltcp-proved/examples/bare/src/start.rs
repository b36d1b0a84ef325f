//! Everything that is unsafe: startup, the calls to the host by semihosting, the panic handler.

use core::arch::{asm, global_asm};
use core::fmt::{self, Write};
use core::panic::PanicInfo;

// Cortex-M: the hardware takes the stack pointer and the address of `_start` from the vector table.
#[cfg(target_arch = "arm")]
global_asm!(
    ".section .start, \"a\"",
    ".word stack_top",
    ".word _start",
    ".rept 14",
    ".word fault",
    ".endr",
    ".text",
    ".global _start",
    ".thumb_func",
    "_start:",
    "ldr r0, =data_start",
    "ldr r1, =data_end",
    "ldr r2, =data_load",
    "2: cmp r0, r1",
    "bhs 3f",
    "ldr r3, [r2], #4",
    "str r3, [r0], #4",
    "b 2b",
    "3: ldr r0, =bss_start",
    "ldr r1, =bss_end",
    "movs r2, #0",
    "4: cmp r0, r1",
    "bhs 5f",
    "str r2, [r0], #4",
    "b 4b",
    "5: bl begin",
    ".global fault",
    ".thumb_func",
    "fault:",
    "ldr r0, =stack_top", // the fault may have been the stack's
    "mov sp, r0",
    "bl faulted",
);

// RISC-V: nothing is set up, also not the stack pointer.
#[cfg(target_arch = "riscv32")]
global_asm!(
    ".section .start, \"ax\"",
    ".global _start",
    "_start:",
    "la sp, stack_top",
    "la t0, fault",
    "csrw mtvec, t0",
    "la t0, data_start",
    "la t1, data_end",
    "la t2, data_load",
    "2: bgeu t0, t1, 3f",
    "lw t3, 0(t2)",
    "sw t3, 0(t0)",
    "addi t2, t2, 4",
    "addi t0, t0, 4",
    "j 2b",
    "3: la t0, bss_start",
    "la t1, bss_end",
    "4: bgeu t0, t1, 5f",
    "sw zero, 0(t0)",
    "addi t0, t0, 4",
    "j 4b",
    "5: call begin",
    ".balign 4", // mtvec's lowest two bits are a mode
    ".global fault",
    "fault:",
    "la sp, stack_top",
    "call faulted",
);

#[unsafe(no_mangle)]
extern "C" fn begin() -> ! {
    exit(crate::main())
}

#[unsafe(no_mangle)]
extern "C" fn faulted() -> ! {
    let _ = Console.write_str("fault\n");
    exit(2)
}

#[panic_handler]
fn panicked(info: &PanicInfo) -> ! {
    let _ = writeln!(Console, "{info}");
    exit(1)
}

const WRITE_0: usize = 0x04;
const EXIT_EXTENDED: usize = 0x20;
const APPLICATION_EXIT: usize = 0x20026;

/// Asks the host, who reads and writes through `argument`.
fn host(operation: usize, argument: *mut u8) -> usize {
    let answer;
    #[cfg(target_arch = "arm")]
    unsafe {
        asm!("bkpt 0xab", inlateout("r0") operation => answer, in("r1") argument);
    }
    // These three in this order, none of them compressed, on one page.
    #[cfg(target_arch = "riscv32")]
    unsafe {
        asm!(
            ".balign 16", ".option push", ".option norvc",
            "slli x0, x0, 0x1f", "ebreak", "srai x0, x0, 7",
            ".option pop",
            inlateout("a0") operation => answer, in("a1") argument,
        );
    }
    answer
}

pub fn exit(code: u32) -> ! {
    let mut block = [APPLICATION_EXIT, code as usize];
    loop {
        host(EXIT_EXTENDED, block.as_mut_ptr().cast());
    }
}

/// Text for the host.
pub struct Console;

impl Write for Console {
    fn write_str(&mut self, text: &str) -> fmt::Result {
        for piece in text.as_bytes().chunks(63) {
            let mut line = [0; 64];
            line[..piece.len()].copy_from_slice(piece);
            host(WRITE_0, line.as_mut_ptr());
        }
        Ok(())
    }
}
