/*
 * A kernel with only iommufd.h and libiommufd.a: two cameras, a driver that sends commands at random, a timer that interrupts on the same stack. The same commands are
 * run twice, without and with interrupts; every answer, and all memory at the end of each round, has to be the same.
 */
#include "machine.h"
#include "shell.h"

#define ROUNDS 200
#define STEPS 96
#ifndef TIMER
#define TIMER 60 /* of 1.193 MHz: 19,900 interrupts a second */
#endif

static struct shell shell;
static uint64_t expected[ROUNDS][STEPS + 1];

/* What one run has seen. */
struct seen {
	int compare; /* with what the first run has left in `expected` */
	uint64_t commands, wrong, disagreements, nowhere;
};

static uint64_t mixed(uint64_t digest, uint64_t number)
{
	digest = (digest ^ number) * 0x9E3779B97F4A7C15u;
	return digest ^ digest >> 29;
}

static uint64_t digest_of(const void *memory, size_t size)
{
	const uint64_t *words = memory;
	uint64_t digest = size;

	for (size_t i = 0; i < size / 8; i++)
		digest = mixed(digest, words[i]);
	return digest;
}

static uint64_t state;

static uint64_t dice(uint64_t below)
{
	state = state * 6364136223846793005u + 1442695040888963407u;
	return (state >> 33) % below;
}

/* A command as a driver has it: bytes, and an area for ranges. */
struct sent {
	uint32_t request;
	union {
		uint64_t words[5];
		struct iommufd_allow_iovas_cmd allow;
		struct iommufd_copy_cmd copy;
		struct iommufd_destroy_cmd destroy;
		struct iommufd_ioas_alloc_cmd alloc;
		struct iommufd_iova_ranges_cmd ranges;
		struct iommufd_map_cmd map;
		struct iommufd_unmap_cmd unmap;
	} c;
	size_t size;
	struct iommufd_range area[4];
	size_t area_size;
};

static int32_t send(struct sent *s)
{
	return shell_command(&shell, s->request, &s->c, s->size, s->area, s->area_size);
}

static struct sent mapping(uint32_t space, uint32_t flags, uint64_t memory, uint64_t length, uint64_t address)
{
	return (struct sent){ .request = IOMMUFD_MAP,
		              .c.map = { .size = sizeof(struct iommufd_map_cmd), .flags = flags, .space = space, .memory = memory, .length = length, .address = address },
		              .size = sizeof(struct iommufd_map_cmd) };
}

static struct sent unmapping(uint32_t space, uint64_t address, uint64_t length)
{
	return (struct sent){ .request = IOMMUFD_UNMAP,
		              .c.unmap = { .size = sizeof(struct iommufd_unmap_cmd), .space = space, .address = address, .length = length },
		              .size = sizeof(struct iommufd_unmap_cmd) };
}

static struct sent copying(uint32_t target, uint32_t flags, uint32_t source, uint64_t length, uint64_t source_address)
{
	return (struct sent){ .request = IOMMUFD_COPY,
		              .c.copy = { .size = sizeof(struct iommufd_copy_cmd), .flags = flags, .target = target, .source = source, .length = length, .source_address = source_address },
		              .size = sizeof(struct iommufd_copy_cmd) };
}

static struct sent allowing(uint32_t space, uint32_t count)
{
	struct sent s = { .request = IOMMUFD_ALLOW_IOVAS,
		          .c.allow = { .size = sizeof(struct iommufd_allow_iovas_cmd), .space = space, .count = count },
		          .size = sizeof(struct iommufd_allow_iovas_cmd),
		          .area_size = sizeof s.area };

	for (uint64_t i = 0; i < 4; i++)
		s.area[i] = (struct iommufd_range){ BASE + 0x80000 * i, BASE + 0x80000 * i + 0x6FFFF };
	return s;
}

static struct sent asking_ranges(uint32_t space, uint32_t count)
{
	return (struct sent){ .request = IOMMUFD_IOVA_RANGES,
		              .c.ranges = { .size = sizeof(struct iommufd_iova_ranges_cmd), .space = space, .count = count },
		              .size = sizeof(struct iommufd_iova_ranges_cmd),
		              .area_size = sizeof(struct iommufd_range) * 4 };
}

static struct sent new_space(void)
{
	return (struct sent){ .request = IOMMUFD_IOAS_ALLOC, .c.alloc = { .size = sizeof(struct iommufd_ioas_alloc_cmd) }, .size = sizeof(struct iommufd_ioas_alloc_cmd) };
}

static struct sent destroying(uint32_t id)
{
	return (struct sent){ .request = IOMMUFD_DESTROY, .c.destroy = { .size = sizeof(struct iommufd_destroy_cmd), .id = id }, .size = sizeof(struct iommufd_destroy_cmd) };
}

/* Spaces 1 and 2, cameras 3 and 4, each attached to its own. */
static int start(void)
{
	struct sent left = new_space(), right = new_space();

	return shell_start(&shell, 512) == 0 && send(&left) == 0 && send(&right) == 0 && left.c.alloc.out_id == 1 && right.c.alloc.out_id == 2 &&
	       shell_bind(&shell, PAGE, BASE + 0x70000, BASE + 0x7FFFF) == 3 && shell_bind(&shell, PAGE, BASE + 0x7F000, BASE + 0x7FFFF) == 4 && shell_attach(&shell, 3, 1) == 0 &&
	       shell_attach(&shell, 4, 2) == 0;
}

/* Single pages with single gaps between them, from high to low: whoever looks for two pages has to pass them all. */
static int crowd(uint32_t space)
{
	for (uint64_t i = 40; i > 0; i--) {
		struct sent page = mapping(space, IOMMUFD_READABLE | IOMMUFD_FIXED, PAGE * i, PAGE, BASE + 2 * PAGE * i);

		if (send(&page) != 0)
			return 0;
	}
	return 1;
}

static struct sent at_random(void)
{
	const uint32_t space = 1 + (uint32_t)dice(2), flags = (uint32_t)(1 + dice(3)) * 2; /* one right or both */
	const uint64_t pages = 1 + dice(6), memory = PAGE * dice(MEMORY - 8);
	const struct iommufd_mapping *some = &shell.table.mappings[dice(80)];

	switch (dice(16)) {
	case 0:
	case 1: return mapping(space, flags | IOMMUFD_FIXED, memory, PAGE * pages, BASE + PAGE * dice(WINDOW));
	case 2:
	case 3: return copying(space, flags, some->space, some->length, some->address);
	case 4:
	case 5:
	case 6:
	case 7: return unmapping(some->space, some->address, some->length);
	case 8: return dice(6) ? unmapping(space, BASE + PAGE * dice(WINDOW), PAGE * 64) : unmapping(space, 0, UINT64_MAX);
	case 9: return dice(4) ? asking_ranges(space, (uint32_t)dice(5)) : allowing(space, (uint32_t)dice(5));
	default: return mapping(space, flags, memory, PAGE * pages, 0);
	}
}

/* An answer: held against the first run's, or kept for the second. */
static void answered(struct seen *seen, int round, int step, uint64_t digest)
{
	if (!seen->compare)
		expected[round][step] = digest;
	else if (expected[round][step] != digest)
		seen->wrong++;
}

static void one_round(struct seen *seen, int round)
{
	state = (uint64_t)round;
	if (!start() || (round % 2 && !crowd(1)))
		seen->wrong++;
	for (int step = 0; step < STEPS; step++) {
		struct sent s = at_random();
		int32_t result = send(&s);

		seen->commands++;
		seen->nowhere += result == -IOMMUFD_ENOSPC;
		answered(seen, round, step, mixed(digest_of(&s.c, sizeof s.c), mixed(digest_of(s.area, sizeof s.area), mixed(digest_of(&shell.why, sizeof shell.why), (uint32_t)result))));
		if (step % 16 == 0)
			for (uint32_t space = 1; space <= 2; space++)
				seen->disagreements += !shell_agrees(&shell, 2 + space, space, dice(64));
	}
	answered(seen, round, STEPS, mixed(digest_of(&shell.table, sizeof shell.table), mixed(digest_of(shell.hardware, sizeof shell.hardware), digest_of(shell.pins, sizeof shell.pins))));
}

static void all_rounds(void *argument)
{
	for (int round = 0; round < ROUNDS; round++)
		one_round(argument, round);
}

/* ---- the flow, told */

static void tell(const char *what, int32_t result)
{
	put_text(what);
	put_text(": ");
	put_number(result);
	put_text(", ");
	put_text(iommufd_errno_text(result));
	put_text("\n");
}

/* A MAP or a COPY that the archive refuses, and why: the errno told has to be the answer's. */
static void tell_why(const char *what, int32_t result)
{
	const struct iommufd_explanation *why = &shell.why;

	tell(what, result);
	put_text("  ");
	put_text(why->error == (uint64_t)-result ? iommufd_reason_text(why->reason) : "another errno is told");
	if (why->number != 0) {
		put_text(why->reason == IOMMUFD_REASON_TOUCHES_MAPPING ? ": record " : ": object ");
		put_number((int64_t)why->number);
	}
	if (why->length != 0) {
		put_text(": the longest free run is ");
		put_hex(why->length);
		put_text(" bytes at ");
		put_hex(why->start);
	}
	put_text("\n");
}

static void story(void)
{
	struct sent buffer, shared, wrong, list;

	tell("two cameras, each with a space of its own", start() ? 0 : -IOMMUFD_EINVAL);
	buffer = mapping(1, IOMMUFD_READABLE | IOMMUFD_WRITEABLE, 0x40000, 0x4000, 0);
	tell("a buffer for the left camera", send(&buffer));
	shared = copying(2, IOMMUFD_READABLE, 1, 0x4000, buffer.c.map.address);
	tell("the same for the right one, to read", send(&shared));
	wrong = mapping(1, IOMMUFD_WRITEABLE | IOMMUFD_FIXED, 0x80000, 0x1000, buffer.c.map.address + 0x1000);
	tell_why("a second buffer on the first", send(&wrong));
	wrong = mapping(1, IOMMUFD_WRITEABLE | IOMMUFD_FIXED, 0x80000, 0x1000, BASE + 0x70000);
	tell_why("a buffer where the camera reserves", send(&wrong));
	list = allowing(1, 4);
	tell("four ranges of 448 KiB for the left camera", send(&list));
	wrong = mapping(1, IOMMUFD_WRITEABLE, 0x80000, 0x71000, 0);
	tell_why("a buffer of 452 KiB", send(&wrong));
	list = allowing(1, 0);
	tell("any place for the left camera", send(&list));
	wrong = mapping(1, IOMMUFD_WRITEABLE, PAGE * (uint64_t)MEMORY, 0x1000, 0);
	tell("memory that the board does not have", send(&wrong));
	tell("the left camera writes", shell_reach(&shell, 3, buffer.c.map.address, 0x4000, 1).result);
	tell("the right camera writes", shell_reach(&shell, 4, shared.c.copy.target_address, 0x4000, 1).result);
	wrong = destroying(1);
	tell("the left space goes while its camera is there", send(&wrong));
	tell("the left camera detached", shell_detach(&shell, 3));
	wrong = destroying(1);
	tell("the left space goes", send(&wrong));
	put_text(shell.pins[0x40] == 1 && shell.hardware[0][0] == 0 && shell.hardware[1][0] != 0 ? "the buffer is held by the right camera alone\n" : "pins or IOMMU are wrong\n");
}

static void tell_number(const char *what, uint64_t number)
{
	put_text(what);
	put_text(": ");
	put_number((int64_t)number);
	put_text("\n");
}

static void tell_reasons(void)
{
	put_text("refused by the archive, and why\n");
	for (size_t i = 0; i < REASONS; i++) {
		if (shell.reasons[i] == 0)
			continue;
		put_text("  ");
		put_number((int64_t)shell.reasons[i]);
		put_text(", ");
		put_text(iommufd_reason_text(i));
		put_text("\n");
	}
}

void kernel_main(void)
{
	struct seen quiet = { .compare = 0 }, disturbed = { .compare = 1 };
	uint64_t calls, deepest;
	int fine;

	set_traps();
	put_text(SSE ? "kernel: SSE on\n" : "kernel: SSE off\n");
	if (iommufd_archive_version != IOMMUFD_VERSION) {
		put_text("the archive is of another version\n");
		quit(1);
	}
	story();

	shell.calls = 0;
	memset(shell.reasons, 0, sizeof shell.reasons);
	paint_stack();
	all_rounds(&quiet);
	deepest = stack_used() - (STACK_TOP - (uint64_t)__builtin_frame_address(0));
	calls = shell.calls;
	tell_number("commands", quiet.commands);
	tell_number("calls of the archive", calls);
	tell_number("answered with -28, no place", quiet.nowhere);
	tell_reasons();
	tell_number("pages where IOMMU and table disagree", quiet.disagreements);
	put_text(deepest <= IOMMUFD_STACK + 1024 ? "the deepest call keeps to IOMMUFD_STACK and 1 KiB of the shell's own\n" : "a call is deeper than IOMMUFD_STACK and 1 KiB\n");

	set_timer(TIMER);
	call_lower(all_rounds, &disturbed, LOWER);
	stop_timer();
	put_text(ticks() > ROUNDS ? "the same with interrupts on the same stack\n" : "there were hardly any interrupts\n");
	tell_number("answers that differ", disturbed.wrong);
	tell_number("answered with -28, no place", disturbed.nowhere);
	tell_number("pages where IOMMU and table disagree", disturbed.disagreements);
	tell_number("answers other than foretold", shell.surprises);

	fine = ticks() > ROUNDS && deepest <= IOMMUFD_STACK + 1024 && disturbed.wrong + quiet.disagreements + disturbed.disagreements + shell.surprises == 0;
	put_text(fine ? "kernel: passed\n" : "kernel: FAILED\n");
	quit(fine ? 0 : 1);
}
