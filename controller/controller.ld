/* The controller's 32,768 bytes, alone at the low end of memory: a stack that is too deep leaves
 * all memory and faults. The harness has its own variables and stack beyond them. */
MEMORY
{
    FLASH (rx) : ORIGIN = 0, LENGTH = 256K
    CONTROLLER (rw) : ORIGIN = 0x20000000, LENGTH = 32K
    HARNESS (rw) : ORIGIN = 0x20008000, LENGTH = 96K
}
ENTRY(reset)
controller_memory = ORIGIN(CONTROLLER);
harness_stack_top = ORIGIN(HARNESS) + LENGTH(HARNESS);
harness_stack = 4K;
SECTIONS
{
    .text : { KEEP(*(.vectors)) *(.text* .rodata*) . = ALIGN(4); } > FLASH
    .ARM.exidx : { *(.ARM.exidx*) } > FLASH
    data_from = LOADADDR(.data);
    .data : { data_start = .; *(.data*) . = ALIGN(4); data_end = .; } > HARNESS AT > FLASH
    .bss (NOLOAD) : { bss_start = .; *(.bss* COMMON) . = ALIGN(4); bss_end = .; } > HARNESS
    ASSERT(bss_end + harness_stack < harness_stack_top, "no room for the harness's stack")
}
