/*
 * From the boot loader to main: long mode, memory mapped one to one, a stack of STACK_SIZE bytes that ends at STACK_TOP with nothing mapped below it, SSE on or off; and
 * the doors through which traps and the timer come.
 */
.set MAGIC, 0x1BADB002 /* multiboot */
.set FLAGS, 3
.set PRESENT, 3 /* and writeable */
.set LARGE, 0x83

.section .multiboot, "a"
.balign 4
.long MAGIC, FLAGS, -(MAGIC + FLAGS)

.bss
.balign 4096
level4: .skip 4096
level3: .skip 4096
level2: .skip 4096
level1: .skip 4096

.text
.code32
.global _start
_start:
	cli
	movl $(level3 + PRESENT), level4
	movl $(level2 + PRESENT), level3
	/* the first GiB in pages of 2 MiB .. */
	xorl %ecx, %ecx
1:	movl %ecx, %eax
	shll $21, %eax
	orl $LARGE, %eax
	movl %eax, level2(, %ecx, 8)
	incl %ecx
	cmpl $512, %ecx
	jne 1b
	/* .. but for 2 to 4 MiB, where only the stack is mapped, and what lies above it */
	movl $(level1 + PRESENT), level2 + 8
	movl $((STACK_TOP - STACK_SIZE - 0x200000) / 4096), %ecx
2:	movl %ecx, %eax
	shll $12, %eax
	addl $(0x200000 + PRESENT), %eax
	movl %eax, level1(, %ecx, 8)
	incl %ecx
	cmpl $512, %ecx
	jne 2b

	movl $level4, %eax
	movl %eax, %cr3
#if SSE
	movl $0x620, %eax /* PAE, and SSE with its faults */
#else
	movl $0x20, %eax /* PAE; an SSE instruction is undefined */
#endif
	movl %eax, %cr4
	movl $0xC0000080, %ecx /* EFER */
	rdmsr
	orl $0x100, %eax /* long mode */
	wrmsr
#if SSE
	movl $0x80000003, %eax /* paging, protection */
#else
	movl $0x8000000F, %eax /* and EM, TS: an x87 instruction is a fault too */
#endif
	movl %eax, %cr0
	lgdt descriptors
	ljmp $8, $long_mode

.code64
long_mode:
	movl $0x10, %eax
	movl %eax, %ss
	movl %eax, %ds
	movl %eax, %es
	movq $STACK_TOP, %rsp
	call kernel_main
1:	hlt
	jmp 1b

.balign 16
.global task_descriptor
segments:
	.quad 0, 0x00AF9A000000FFFF, 0x00CF92000000FFFF
task_descriptor:
	.quad 0, 0
descriptors:
	.word descriptors - segments - 1
	.quad segments

/* A trap is the end. It has a stack of its own, as it may come from a stack that is used up. */
.macro TRAP number, has_code
.global trap_\number
trap_\number:
	.if \has_code == 0
	pushq $0
	.endif
	pushq $\number
	jmp trapped
.endm
TRAP 6, 0
TRAP 7, 0
TRAP 8, 1
TRAP 13, 1
TRAP 14, 1
trapped:
	movq %rsp, %rdi
	movq %cr2, %rsi
	andq $-16, %rsp
	call report_trap

/* The timer comes on whatever stack is in use. */
.global timer_door
timer_door:
	pushq %rax
	pushq %rcx
	pushq %rdx
	pushq %rsi
	pushq %rdi
	pushq %r8
	pushq %r9
	pushq %r10
	pushq %r11
	cld
	call timer_tick
	popq %r11
	popq %r10
	popq %r9
	popq %r8
	popq %rdi
	popq %rsi
	popq %rdx
	popq %rcx
	popq %rax
	iretq

/* Calls f(argument) with the stack pointer moved down by so many bytes: to see that 8 are as good as 16. */
.global call_lower
call_lower: /* rdi f, rsi argument, rdx bytes */
	pushq %rbx
	movq %rdx, %rbx
	subq %rbx, %rsp
	movq %rdi, %rax
	movq %rsi, %rdi
	call *%rax
	addq %rbx, %rsp
	popq %rbx
	ret
.section .note.GNU-stack, "", @progbits
