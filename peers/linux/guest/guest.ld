OUTPUT_ARCH(riscv)
SECTIONS {
	. = 0x80000000;
	.text : { *(.text.start) *(.text*) *(.rodata*) *(.srodata*) }
	.data : { *(.data*) *(.sdata*) }
	.bss : { *(.bss*) *(.sbss*) }
	/DISCARD/ : { *(.note*) *(.comment) *(.eh_frame*) }
}
