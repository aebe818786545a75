/* Where the parts of a program stand: in the Image window, each from a page of its own on, because
 * a page has one right. Code may be executed, constants only be read, data be written. */
OUTPUT_ARCH(riscv)
ENTRY(_start)

PHDRS
{
    code PT_LOAD FLAGS(5);
    constants PT_LOAD FLAGS(4);
    data PT_LOAD FLAGS(6);
}

SECTIONS
{
    . = 0x00010000;
    .text : { *(.start) *(.text .text.*) } :code
    . = ALIGN(4096);
    .rodata : { *(.rodata .rodata.* .srodata .srodata.*) } :constants
    .init_array : ALIGN(4)
    {
        PROVIDE_HIDDEN(__init_array_start = .);
        KEEP(*(SORT_BY_INIT_PRIORITY(.init_array.*)))
        KEEP(*(.init_array))
        PROVIDE_HIDDEN(__init_array_end = .);
    } :constants
    /* What each thread's thread-local data begins as (libc.c). */
    .tdata : ALIGN(16) { *(.tdata .tdata.*) } :constants
    .tbss : { *(.tbss .tbss.* .tcommon) } :constants
    PROVIDE(xous_tls_start = ADDR(.tdata));
    PROVIDE(xous_tls_data_size = ADDR(.tbss) - ADDR(.tdata));
    PROVIDE(xous_tls_size = (ADDR(.tbss) + SIZEOF(.tbss) - ADDR(.tdata) + 15) / 16 * 16);
    . = ALIGN(4096);
    .data : { *(.data .data.* .sdata .sdata.*) } :data
    . = ALIGN(4096);
    .bss :
    {
        *(.bss .bss.* .sbss .sbss.* COMMON)
        . = (SIZEOF(.tdata) + SIZEOF(.tbss) ? ALIGN(16) : .);
        PROVIDE(xous_first_tls = .);
        . += (SIZEOF(.tdata) + SIZEOF(.tbss) ? xous_tls_size : 0);
    } :data
    /DISCARD/ : { *(.comment .eh_frame .note.*) }
}

ASSERT(SIZEOF(.tdata) + SIZEOF(.tbss) == 0 || DEFINED(xous_make_thread_local),
       "thread-local data needs the C library (LIBC = picolibc, kit.mk); or keep it in a table by thread id")
