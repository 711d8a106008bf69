/* Memory of the AN386 board, which qemu has: code from 0, data from 0x20000000. */
MEMORY {
    code (rx) : ORIGIN = 0x00000000, LENGTH = 4M
    data (rw) : ORIGIN = 0x20000000, LENGTH = 4M
}
ENTRY(_start)
stack_top = ORIGIN(data) + LENGTH(data);
SECTIONS {
    .text : { KEEP(*(.vectors)) *(.text*) KEEP(*(.init)) KEEP(*(.fini)) *(.rodata*) } > code
    .ARM.exidx : { __exidx_start = .; *(.ARM.exidx*) __exidx_end = .; } > code
    .data : { *(.data*) } > data
    .init_array : {
        __preinit_array_start = .;
        __preinit_array_end = .;
        __init_array_start = .;
        KEEP(*(.init_array*))
        __init_array_end = .;
        __fini_array_start = .;
        KEEP(*(.fini_array*))
        __fini_array_end = .;
    } > data
    .bss : { __bss_start__ = .; *(.bss*) *(COMMON) __bss_end__ = .; } > data
    end = .;
    __end__ = .;
}
