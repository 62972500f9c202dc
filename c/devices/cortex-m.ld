/* Memory of a Cortex-M machine of qemu: `flash_size` and `ram_size` come from the command line. */
MEMORY {
    FLASH (rx) : ORIGIN = 0x00000000, LENGTH = flash_size
    RAM (rwx) : ORIGIN = 0x20000000, LENGTH = ram_size
}
ENTRY(reset)
SECTIONS {
    .text : {
        KEEP(*(.vectors))
        *(.text*) *(.rodata*)
        KEEP(*(.init)) KEEP(*(.fini))
        . = ALIGN(4);
        __preinit_array_start = .; KEEP(*(.preinit_array*)) __preinit_array_end = .;
        __init_array_start = .; KEEP(*(SORT(.init_array.*))) KEEP(*(.init_array*)) __init_array_end = .;
        __fini_array_start = .; KEEP(*(SORT(.fini_array.*))) KEEP(*(.fini_array*)) __fini_array_end = .;
    } > FLASH
    .ARM.exidx : { __exidx_start = .; *(.ARM.exidx* .ARM.extab*) __exidx_end = .; } > FLASH
    .data : { . = ALIGN(8); data_start = .; *(.data*) . = ALIGN(8); data_end = .; } > RAM AT > FLASH
    data_source = LOADADDR(.data);
    .bss (NOLOAD) : { . = ALIGN(8); __bss_start__ = .; bss_start = .; *(.bss*) *(COMMON) . = ALIGN(8); bss_end = .; __bss_end__ = .; } > RAM
    end = .;
    stack_top = ORIGIN(RAM) + LENGTH(RAM);
}
