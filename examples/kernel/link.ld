/* The kernel lies from 1 MiB on and ends below the stack's own 2 MiB (boot.S). */
ENTRY(_start)
SECTIONS
{
	. = 0x100000;
	.text : { *(.multiboot) *(.text*) }
	.rodata : { *(.rodata*) }
	.data : { *(.data*) }
	.bss : { *(.bss*) *(COMMON) }
	ASSERT(. <= 0x200000, "the kernel runs into its stack")
	/DISCARD/ : { *(.comment) *(.eh_frame) *(.note*) }
}
