#include "machine.h"

static inline void out(uint16_t port, uint8_t byte)
{
	__asm__ volatile("outb %0, %1" ::"a"(byte), "Nd"(port));
}

/* ---- what C owes the archive. By bytes from low to high, which the machine does fast; no vector register, no stack. */

void *memcpy(void *to, const void *from, size_t size)
{
	void *at = to;
	size_t words = size / 8, bytes = size % 8;

	__asm__ volatile("rep movsq" : "+D"(at), "+S"(from), "+c"(words)::"memory");
	__asm__ volatile("rep movsb" : "+D"(at), "+S"(from), "+c"(bytes)::"memory");
	return to;
}

void *memset(void *to, int byte, size_t size)
{
	void *at = to;
	uint64_t word = (uint8_t)byte * 0x0101010101010101u;
	size_t words = size / 8, bytes = size % 8;

	__asm__ volatile("rep stosq" : "+D"(at), "+c"(words) : "a"(word) : "memory");
	__asm__ volatile("rep stosb" : "+D"(at), "+c"(bytes) : "a"(word) : "memory");
	return to;
}

void *memmove(void *to, const void *from, size_t size)
{
	uint8_t *t = to;
	const uint8_t *f = from;

	if (t <= f || t >= f + size)
		return memcpy(to, from, size);
	while (size--)
		t[size] = f[size];
	return to;
}

/* ---- the serial line */

static void put_byte(char c)
{
	out(0x3F8, (uint8_t)c);
}

void put_text(const char *text)
{
	while (*text)
		put_byte(*text++);
}

static void put_digits(uint64_t n, unsigned base)
{
	if (n >= base)
		put_digits(n / base, base);
	put_byte("0123456789abcdef"[n % base]);
}

void put_number(int64_t number)
{
	if (number < 0)
		put_byte('-');
	put_digits(number < 0 ? 0 - (uint64_t)number : (uint64_t)number, 10);
}

void put_hex(uint64_t number)
{
	put_text("0x");
	put_digits(number, 16);
}

/* QEMU's own door out: it ends with the status 2 * status + 1. */
_Noreturn void quit(int status)
{
	out(0xF4, (uint8_t)status);
	for (;;)
		__asm__ volatile("cli; hlt");
}

/* ---- traps: each is told and ends the kernel */

struct trap_frame {
	uint64_t number, code, rip, cs, flags, rsp, ss;
};

_Noreturn void report_trap(const struct trap_frame *frame, uint64_t address)
{
	put_text("trap ");
	put_number((int64_t)frame->number);
	put_text(frame->number == 6   ? ", an instruction that is off"
	         : frame->number == 14 ? ", a page that is not there"
	                               : "");
	put_text(", at ");
	put_hex(frame->rip);
	put_text(", stack pointer ");
	put_hex(frame->rsp);
	put_text(", address ");
	put_hex(address);
	put_text("\n");
	quit(1);
}

struct __attribute__((packed)) gate {
	uint16_t low, segment;
	uint8_t stack, kind;
	uint16_t middle;
	uint32_t high, zero;
};

struct __attribute__((packed)) task {
	uint32_t zero;
	uint64_t stacks[3], zero2, trap_stacks[7], zero3;
	uint16_t zero4, ports;
};

static struct gate gates[256];
static struct task task;
static uint8_t trap_stack[4096] __attribute__((aligned(16)));

extern uint64_t task_descriptor[2];
extern void trap_6(void), trap_7(void), trap_8(void), trap_13(void), trap_14(void), timer_door(void);

static void set_gate(int number, void (*door)(void), uint8_t stack)
{
	uint64_t at = (uint64_t)door;

	gates[number] = (struct gate){ .low = (uint16_t)at, .segment = 8, .stack = stack, .kind = 0x8E, .middle = (uint16_t)(at >> 16), .high = (uint32_t)(at >> 32) };
}

void set_traps(void)
{
	struct __attribute__((packed)) {
		uint16_t limit;
		void *base;
	} table = { sizeof gates - 1, gates };
	uint64_t at = (uint64_t)&task;

	task.trap_stacks[0] = (uint64_t)(trap_stack + sizeof trap_stack);
	task.ports = sizeof task;
	task_descriptor[0] = (sizeof task - 1) | (at & 0xFFFFFF) << 16 | 0x89ul << 40 | (at >> 24 & 0xFF) << 56;
	task_descriptor[1] = at >> 32;
	__asm__ volatile("ltr %w0" ::"r"(0x18));
	set_gate(6, trap_6, 1);
	set_gate(7, trap_7, 1);
	set_gate(8, trap_8, 1);
	set_gate(13, trap_13, 1);
	set_gate(14, trap_14, 1);
	set_gate(32, timer_door, 0); /* 0: the stack that is in use */
	__asm__ volatile("lidt %0" ::"m"(table));
}

/* ---- the timer */

static volatile uint64_t counted;

/* The handler keeps away from the table: who is interrupted may hold its lock. */
void timer_tick(void)
{
	counted++;
	out(0x20, 0x20);
}

uint64_t ticks(void)
{
	return counted;
}

void set_timer(uint16_t divisor)
{
	static const struct {
		uint16_t port;
		uint8_t byte;
	} steps[] = { { 0x20, 0x11 }, { 0xA0, 0x11 }, { 0x21, 32 }, { 0xA1, 40 }, { 0x21, 4 }, { 0xA1, 2 }, { 0x21, 1 }, { 0xA1, 1 }, { 0x21, 0xFE }, { 0xA1, 0xFF }, { 0x43, 0x34 } };

	for (size_t i = 0; i < sizeof steps / sizeof *steps; i++)
		out(steps[i].port, steps[i].byte);
	out(0x40, (uint8_t)divisor);
	out(0x40, (uint8_t)(divisor >> 8));
	__asm__ volatile("sti");
}

void stop_timer(void)
{
	__asm__ volatile("cli");
}

/* ---- the stack */

#define PAINT 0xA5A5A5A5A5A5A5A5u

void paint_stack(void)
{
	volatile uint64_t *at = (uint64_t *)(STACK_TOP - STACK_SIZE);

	while ((uint64_t)at < (uint64_t)__builtin_frame_address(0) - 64)
		*at++ = PAINT;
}

uint64_t stack_used(void)
{
	const uint64_t *at = (uint64_t *)(STACK_TOP - STACK_SIZE);

	while (*at == PAINT)
		at++;
	return STACK_TOP - (uint64_t)at;
}
