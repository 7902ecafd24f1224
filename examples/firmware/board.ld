/* RAM from 1 MB past where QEMU's machine `virt` has it, for aarch64 and for armv7: there the example runs with no system below it. What is
 * run, read and written has pages of its own, so that an emulator of programs can keep them apart. */
ENTRY(_start)
SECTIONS
{
    . = 0x40100000;
    .text : { *(.text.start) *(.text*) }
    . = ALIGN(4096);
    .rodata : { *(.rodata*) }
    . = ALIGN(4096);
    .data : { *(.data*) }
    .bss : ALIGN(16)
    {
        zeros_start = .;
        *(.bss*) *(COMMON)
        . = ALIGN(16);
        zeros_end = .;
        /* VSMD_STACK_MOST, 8K, for a run, and as much again for what is around it */
        . += 16K;
        stack_end = .;
    }
    /DISCARD/ : { *(.ARM.exidx*) *(.comment) *(.note*) }
}
