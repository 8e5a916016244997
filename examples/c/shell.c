/* A small kernel shell: two cameras, two spaces, a private and a shared buffer, and what each camera reaches. */
#include "iommufd.h"

#include <stdio.h>
#include <stdlib.h>

static struct iommufd_table table;

/* Prints a step with its result, and stops where it is not the one expected. */
static void step(const char *what, int32_t result, int32_t expected)
{
	if (result < 0)
		printf("%-44s %d, %s\n", what, (int)result, iommufd_errno_text(result));
	else
		printf("%-44s %d\n", what, (int)result);
	if (result != expected) {
		printf("expected %d\n", (int)expected);
		exit(1);
	}
}

/* A command with no range area. */
static int32_t call(uint32_t request, void *command, size_t size)
{
	return iommufd_table_call(&table, request, command, size, NULL, 0);
}

static uint32_t new_space(const char *what)
{
	struct iommufd_ioas_alloc_cmd alloc = { .size = sizeof alloc };

	step(what, call(IOMMUFD_IOAS_ALLOC, &alloc, sizeof alloc), 0);
	return alloc.out_id;
}

static uint32_t new_camera(const char *what, int32_t id)
{
	const struct iommufd_reserved reserved = { .count = 1, .starts = { 0xFEE00000 }, .lasts = { 0xFEEFFFFF } };

	step(what, iommufd_table_bind(&table, 4096, &reserved), id);
	return (uint32_t)id;
}

/* Why a MAP or a COPY was refused, with what stands in the way. A refusal writes nothing, so that command and table are what they were. */
static void print_why(uint32_t request, const void *command, size_t size, int32_t result)
{
	struct iommufd_explanation why;

	if (iommufd_table_explain(&table, request, command, size, &why) != 0 || why.error != (uint64_t)-result) {
		printf("expected a reason for %d\n", (int)result);
		exit(1);
	}
	printf("  %s", iommufd_reason_text(why.reason));
	if (why.reason == IOMMUFD_REASON_TOUCHES_MAPPING) {
		const struct iommufd_mapping *m = &table.mappings[why.number - 1];

		printf(": record %llu (0x%llx to 0x%llx)", (unsigned long long)why.number, (unsigned long long)m->address, (unsigned long long)(m->address + (m->length - 1)));
	} else if (why.reason == IOMMUFD_REASON_TOUCHES_RESERVED) {
		printf(": object %llu", (unsigned long long)why.number);
	} else if (why.reason == IOMMUFD_REASON_NO_PLACE && why.length != 0) {
		printf(": the longest free run is 0x%llx bytes at 0x%llx", (unsigned long long)why.length, (unsigned long long)why.start);
	} else if (why.reason == IOMMUFD_REASON_NO_PLACE) {
		printf(": no multiple of the alignment is free");
	}
	printf("\n");
}

/* A MAP or a COPY. */
static void add(const char *what, uint32_t request, void *command, size_t size, int32_t expected)
{
	int32_t result = call(request, command, size);

	step(what, result, expected);
	if (result < 0)
		print_why(request, command, size, result);
}

static uint64_t map(const char *what, uint32_t space, uint32_t flags, uint64_t memory, uint64_t length, uint64_t address, int32_t expected)
{
	struct iommufd_map_cmd map = {
		.size = sizeof map, .flags = flags, .space = space, .memory = memory, .length = length, .address = address,
	};

	add(what, IOMMUFD_MAP, &map, sizeof map, expected);
	return map.address;
}

static void copy(const char *what, uint32_t target, uint32_t flags, uint32_t source, uint64_t source_address, uint64_t length, int32_t expected)
{
	struct iommufd_copy_cmd copy = {
		.size = sizeof copy, .flags = flags, .target = target, .source = source, .length = length, .source_address = source_address,
	};

	add(what, IOMMUFD_COPY, &copy, sizeof copy, expected);
}

/* Automatic mappings of a space go into these ranges; with none they go anywhere. */
static void allow(const char *what, uint32_t space, struct iommufd_range *ranges, uint32_t count)
{
	struct iommufd_allow_iovas_cmd allow = { .size = sizeof allow, .space = space, .count = count };

	step(what, iommufd_table_call(&table, IOMMUFD_ALLOW_IOVAS, &allow, sizeof allow, ranges, count * sizeof *ranges), 0);
}

/* What a kernel has to unpin once a range is unmapped: every mapping there, told before the call. */
static void print_going(uint32_t space, uint64_t address, uint64_t last)
{
	uint64_t a, end;
	int32_t r;

	for (a = address; (r = iommufd_table_next(&table, space, a)) > 0 && table.mappings[r - 1].address <= last; a = end + 1) {
		const struct iommufd_mapping *m = &table.mappings[r - 1];

		printf("  to unpin: 0x%llx bytes from memory 0x%llx\n", (unsigned long long)m->length, (unsigned long long)m->memory);
		end = m->address + (m->length - 1);
		if (end == UINT64_MAX)
			break;
	}
}

static void unmap(const char *what, uint32_t space, uint64_t address, uint64_t length)
{
	struct iommufd_unmap_cmd unmap = { .size = sizeof unmap, .space = space, .address = address, .length = length };

	print_going(space, address, address == 0 && length == UINT64_MAX ? UINT64_MAX : address + (length - 1));
	step(what, call(IOMMUFD_UNMAP, &unmap, sizeof unmap), 0);
	printf("%-44s 0x%llx\n", "bytes removed", (unsigned long long)unmap.length);
}

static void reach(const char *what, uint32_t camera, uint64_t address, uint64_t length, uint32_t write)
{
	struct iommufd_number n = iommufd_table_reach(&table, camera, address, length, write);

	if (n.result == 0)
		printf("%-44s memory 0x%llx\n", what, (unsigned long long)n.value);
	else
		printf("%-44s %d, %s\n", what, (int)n.result, iommufd_errno_text(n.result));
}

static void charge(void)
{
	struct iommufd_number n = iommufd_table_charge(&table);

	printf("%-44s %llu pages\n", "charge", (unsigned long long)n.value);
}

/* The mappings of a space in ascending address, as the index lists them. */
static void print_space(uint32_t space)
{
	size_t mapped = 0;

	printf("space %u\n", (unsigned)space);
	for (size_t i = 0; i < IOMMUFD_INDEX_WORDS && table.index[i] != 0; i++) {
		const struct iommufd_mapping *m = &table.mappings[table.index[i] - 1];

		if (m->space != space)
			continue;
		mapped++;
		printf("  0x%08llx to 0x%08llx -> memory 0x%08llx  %c%c  backing %u\n", (unsigned long long)m->address, (unsigned long long)(m->address + (m->length - 1)),
		       (unsigned long long)m->memory, m->rights & IOMMUFD_RIGHT_READ ? 'r' : '-', m->rights & IOMMUFD_RIGHT_WRITE ? 'w' : '-', (unsigned)m->backing);
	}
	if (mapped == 0)
		printf("  nothing mapped\n");
}

/* Exchanges the first two mappings of the index. */
static void exchange(void)
{
	uint64_t first = table.index[0];

	table.index[0] = table.index[1];
	table.index[1] = first;
}

int main(void)
{
	const uint32_t rw = IOMMUFD_READABLE | IOMMUFD_WRITEABLE;
	uint32_t left, right, left_camera, right_camera;
	uint64_t private_at, shared_at;
	struct iommufd_range window = { .start = 0x10000, .last = 0x1FFFF };

	if (iommufd_archive_version != IOMMUFD_VERSION) {
		printf("the archive is of version %u, the header of version %u\n", (unsigned)iommufd_archive_version, (unsigned)IOMMUFD_VERSION);
		return 1;
	}
	step("a table of at most 64 pages", iommufd_table_fresh(&table, 64), 0);
	left = new_space("the left camera's space");
	right = new_space("the right camera's space");
	left_camera = new_camera("the left camera", 3);
	right_camera = new_camera("the right camera", 4);
	step("left camera to its space", iommufd_table_attach(&table, left_camera, left), 0);
	step("right camera to its space", iommufd_table_attach(&table, right_camera, right), 0);

	private_at = map("a private buffer, writeable", left, rw, 0x100000, 0x4000, 0, 0);
	shared_at = map("a shared buffer, writeable", left, rw, 0x200000, 0x2000, 0, 0);
	map("a second buffer on the private one", left, rw | IOMMUFD_FIXED, 0x300000, 0x1000, private_at, -IOMMUFD_EEXIST);
	map("a buffer where the camera reserves", left, rw | IOMMUFD_FIXED, 0x300000, 0x1000, 0xFEE00000, -IOMMUFD_EINVAL);
	copy("the shared buffer, copied for reading", right, IOMMUFD_READABLE, left, shared_at, 0x2000, 0);
	copy("a copy of half of it", right, IOMMUFD_READABLE, left, shared_at, 0x1000, -IOMMUFD_ENOENT);
	charge();
	print_space(left);
	print_space(right);

	allow("64 KiB for the left camera", left, &window, 1);
	map("a buffer of 128 KiB", left, rw, 0x300000, 0x20000, 0, -IOMMUFD_ENOSPC);
	map("a buffer in the midst of the 64 KiB", left, rw | IOMMUFD_FIXED, 0x300000, 0x2000, 0x14000, 0);
	map("a buffer of 48 KiB", left, rw, 0x310000, 0xC000, 0, -IOMMUFD_ENOSPC);
	unmap("the one in the midst goes", left, 0x14000, 0x2000);
	map("a buffer of 64 KiB", left, rw, 0x300000, 0x10000, 0, 0);
	map("a page more", left, rw, 0x310000, 0x1000, 0, -IOMMUFD_ENOSPC);
	unmap("the 64 KiB go", left, 0x10000, 0x10000);
	allow("any place for the left camera", left, NULL, 0);

	reach("left camera writes its private buffer", left_camera, private_at + 0x1000, 0x1000, 1);
	reach("left camera writes the shared buffer", left_camera, shared_at, 0x2000, 1);
	reach("right camera reads the shared buffer", right_camera, 0, 0x2000, 0);
	reach("right camera writes the shared buffer", right_camera, 0, 0x2000, 1);
	reach("right camera reads past its buffer", right_camera, 0x1000, 0x2000, 0);

	unmap("the private buffer goes", left, private_at, 0x4000);
	charge();
	print_space(left);
	print_space(right);
	step("a mapping of the left camera from 0x6000 on", iommufd_table_next(&table, left, 0x6000), 0);
	step("a mapping of what is no space", iommufd_table_next(&table, left_camera, 0), -IOMMUFD_ENOENT);
	reach("left camera writes where the buffer was", left_camera, private_at, 1, 1);

	map("the last page of all addresses", right, IOMMUFD_READABLE | IOMMUFD_FIXED, 0x400000, 0x1000, UINT64_MAX - 0xFFF, 0);
	print_space(right);
	exchange();
	step("an index that is out of order", iommufd_table_reach(&table, right_camera, 0, 1, 0).result, -IOMMUFD_EUCLEAN);
	exchange();
	unmap("everything of the right camera goes", right, 0, UINT64_MAX);
	print_space(right);

	table.head.objects[5].kind = 7;
	step("a kind that is none", call(IOMMUFD_DESTROY, &(struct iommufd_destroy_cmd){ .size = 8, .id = left }, 8), -IOMMUFD_EUCLEAN);
	table.head.objects[5].kind = IOMMUFD_FREE;
	step("127 records lent", iommufd_detach(&table.head, table.mappings, IOMMUFD_MAPPINGS - 1, table.index, IOMMUFD_INDEX_WORDS, left_camera), -IOMMUFD_EUCLEAN);
	step("no index lent", iommufd_detach(&table.head, table.mappings, IOMMUFD_MAPPINGS, NULL, 0, left_camera), -IOMMUFD_EUCLEAN);
	step("left camera detached", iommufd_table_detach(&table, left_camera), 0);
	step("its space destroyed", call(IOMMUFD_DESTROY, &(struct iommufd_destroy_cmd){ .size = 8, .id = left }, 8), 0);
	charge();
	print_space(left);
	print_space(right);
	return 0;
}
