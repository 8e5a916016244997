/* The little of a PC that the example needs: a serial line to write to, traps, a timer, an end. */
#ifndef MACHINE_H
#define MACHINE_H

#include <stddef.h>
#include <stdint.h>

void put_text(const char *text);
void put_number(int64_t number);
void put_hex(uint64_t number);
_Noreturn void quit(int status);

void set_traps(void);
void set_timer(uint16_t divisor); /* of 1.193 MHz; interrupts are on afterwards */
void stop_timer(void);
uint64_t ticks(void);

/* How deep the stack was since it was painted, in bytes below its top. */
void paint_stack(void);
uint64_t stack_used(void);

void call_lower(void (*f)(void *), void *argument, uint64_t bytes);

void *memcpy(void *to, const void *from, size_t size);
void *memmove(void *to, const void *from, size_t size);
void *memset(void *to, int byte, size_t size);

#endif
