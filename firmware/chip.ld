/* FLASH, FLASH_SIZE, RAM and RAM_SIZE are the board's; CODE_IN_RAM is 1 if its code is copied to memory. */
MEMORY {
    flash (rx) : ORIGIN = FLASH, LENGTH = FLASH_SIZE
    ram (rwx) : ORIGIN = RAM, LENGTH = RAM_SIZE
}
REGION_ALIAS("code", @CODE@)
ENTRY(reset)
SECTIONS {
    .boot2 : { KEEP(*(.boot2)) } > flash
    .vectors : { KEEP(*(.vectors)) *(.reset) . = ALIGN(8); } > flash
    .image : { KEEP(*(.image)) . = ALIGN(8); } > flash
    .world : { world_begin = .; *(.world) . = ALIGN(8); world_end = .; } > flash /* the simulated PC's, if there is one */
    .text : {
        text_begin = .;
        *(.text .text.*) *(.rodata .rodata.*) *(.ARM.exidx*)
        . = ALIGN(8);
    } > code AT > flash
    .data : { *(.data .data.*) . = ALIGN(8); } > ram AT > flash
    copied_to = @COPIED@;
    copied_from = @COPIED_FROM@;
    copied_end = ADDR(.data) + SIZEOF(.data);
    .bss (NOLOAD) : { cleared = .; *(.bss .bss.* COMMON) . = ALIGN(8); cleared_end = .; } > ram
    stack_top = ORIGIN(ram) + LENGTH(ram);
    /* What is copied is in one piece, in the file as in memory. */
    ASSERT(copied_end - copied_to == LOADADDR(.data) + SIZEOF(.data) - copied_from, "a gap in what is copied")
    /DISCARD/ : { *(.comment) *(.ARM.attributes) *(.note*) }
}
