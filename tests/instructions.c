/*
 * Calls of the archive, to be counted by tests/instructions.py: `measured` is entered once for each, and a line names it. Table and calls are those of
 * tests/outside/src/workloads.rs: table ascending with 0 and with 128 mappings, automatic MAP and its UNMAP, reach, refused early; and why MAPs are refused.
 */
#include "iommufd.h"

#include <stdio.h>
#include <stdlib.h>

#define LENGTH 0x3000u
#define SLOT 0x4000u

static struct iommufd_table table;

/* The request 0 is a reach of the address. With an explanation the question is why the command is refused. */
__attribute__((noinline, noclone)) int32_t measured(uint32_t request, void *command, size_t size, uint64_t address, struct iommufd_explanation *why)
{
	if (request == 0)
		return iommufd_table_reach(&table, 2, address, 0x40, 1).result;
	if (why != NULL)
		return iommufd_table_explain(&table, request, command, size, why);
	return iommufd_table_call(&table, request, command, size, NULL, 0);
}

/* A space with a device, and mappings. */
static void make(unsigned mappings)
{
	struct iommufd_ioas_alloc_cmd alloc = { .size = sizeof alloc };
	struct iommufd_reserved reserved = { .count = 1, .starts = { 0xFEE00000 }, .lasts = { 0xFEEFFFFF } };

	iommufd_table_fresh(&table, (uint64_t)1 << 36);
	iommufd_table_call(&table, IOMMUFD_IOAS_ALLOC, &alloc, sizeof alloc, NULL, 0);
	iommufd_table_bind(&table, 0x1000, &reserved);
	iommufd_table_attach(&table, 2, 1);
	for (uint32_t i = 0; i < mappings; i++) {
		table.index[i] = i + 1;
		table.mappings[i] = (struct iommufd_mapping){ .space = 1, .rights = IOMMUFD_RIGHT_WRITE | IOMMUFD_RIGHT_READ, .founder = 1, .backing = i + 1,
		                                              .address = (uint64_t)SLOT * i, .length = LENGTH, .memory = 0x100000 * (1 + (uint64_t)i) };
	}
}

/*
 * As many ranges as a space can have beside it: 128 mappings of a page, 31 devices that reserve a page behind each of 123 of them and all that lies above. No list, and free
 * pages between them: whatever start is tried for a run, all others may end it.
 */
static void crowd(void)
{
	make(0);
	table.head.objects[1] = (struct iommufd_object){ .kind = IOMMUFD_FREE };
	for (uint32_t i = 0; i < 124; i++) {
		struct iommufd_object *device = &table.head.objects[1 + i / 4];

		device->kind = IOMMUFD_ATTACHED;
		device->home = 1;
		device->bitmap = 0x1000;
		device->reserved_count = 1 + i % 4;
		device->reserved_starts[i % 4] = i < 123 ? (uint64_t)SLOT * i + 0x2000 : (uint64_t)SLOT * IOMMUFD_MAPPINGS;
		device->reserved_lasts[i % 4] = i < 123 ? (uint64_t)SLOT * i + 0x2FFF : UINT64_MAX;
	}
	for (uint32_t i = 0; i < IOMMUFD_MAPPINGS; i++) {
		table.index[i] = i + 1;
		table.mappings[i] = (struct iommufd_mapping){ .space = 1, .rights = IOMMUFD_RIGHT_READ, .backing = i + 1, .address = (uint64_t)SLOT * i, .length = 0x1000,
		                                              .memory = 0x100000 * (1 + (uint64_t)i) };
	}
}

static void told(const char *call, unsigned mappings, int32_t wanted, int32_t got)
{
	if (got != wanted) {
		fprintf(stderr, "instructions: %s with %u mappings: %s\n", call, mappings, iommufd_errno_text(got));
		exit(1);
	}
	printf("%s | %u\n", call, mappings);
}

/* The errno that an explanation tells, as the result of the call that it is about. */
static int32_t explained(struct iommufd_map_cmd *map)
{
	struct iommufd_explanation why;
	int32_t result = measured(IOMMUFD_MAP, map, sizeof *map, 0, &why);

	return result < 0 ? result : -(int32_t)why.error;
}

/* Automatic places of the space lie in one range. */
static void allow(uint64_t start, uint64_t last)
{
	struct iommufd_allow_iovas_cmd allow = { .size = sizeof allow, .space = 1, .count = 1 };
	struct iommufd_range range = { .start = start, .last = last };

	iommufd_table_call(&table, IOMMUFD_ALLOW_IOVAS, &allow, sizeof allow, &range, sizeof range);
}

static __attribute__((noinline)) void calls(unsigned mappings)
{
	struct iommufd_map_cmd map = { .size = sizeof map, .flags = IOMMUFD_WRITEABLE | IOMMUFD_READABLE, .space = 1, .length = LENGTH };
	struct iommufd_unmap_cmd unmap = { .size = sizeof unmap, .space = 1, .length = LENGTH };
	struct iommufd_map_cmd unknown = { .size = sizeof unknown, .flags = 8, .space = 1, .length = LENGTH };
	uint64_t last = mappings ? (uint64_t)SLOT * (mappings - 1) : 0;
	/* on the last mapping, or with none on what the device reserves; longer than the range that is allowed */
	struct iommufd_map_cmd on = { .size = sizeof on, .flags = IOMMUFD_FIXED | IOMMUFD_READABLE, .space = 1, .length = 0x1000, .address = mappings ? last : 0xFEE00000 };
	struct iommufd_map_cmd between = { .size = sizeof between, .flags = IOMMUFD_READABLE, .space = 1, .length = SLOT * IOMMUFD_MAPPINGS + 0x1000 };
	struct iommufd_map_cmd longer = { .size = sizeof longer, .flags = IOMMUFD_READABLE, .space = 1, .length = SLOT };

	make(mappings < IOMMUFD_MAPPINGS ? mappings : IOMMUFD_MAPPINGS - 1); /* a MAP needs a free record */
	told("automatic MAP", mappings, 0, measured(IOMMUFD_MAP, &map, sizeof map, 0, NULL));
	unmap.address = map.address;
	told("its UNMAP", mappings, 0, measured(IOMMUFD_UNMAP, &unmap, sizeof unmap, 0, NULL));

	make(mappings);
	told("reach", mappings, mappings ? 0 : -IOMMUFD_EFAULT, measured(0, NULL, 0, last + 0x100, NULL));
	told("refused early", mappings, -IOMMUFD_EOPNOTSUPP, measured(IOMMUFD_MAP, &unknown, sizeof unknown, 0, NULL));
	told("why: an unknown flag, -95", mappings, -IOMMUFD_EOPNOTSUPP, explained(&unknown));
	told(mappings ? "why: a mapping is touched, -17" : "why: a reserved range is touched, -22", mappings, mappings ? -IOMMUFD_EEXIST : -IOMMUFD_EINVAL, explained(&on));
	allow(0, (uint64_t)SLOT * IOMMUFD_MAPPINGS - 1);
	told("why: no place, -28", mappings, -IOMMUFD_ENOSPC, explained(&between));
	if (mappings < IOMMUFD_MAPPINGS)
		return;

	crowd();
	told("crowded: refused, no place, -28", mappings, -IOMMUFD_ENOSPC, measured(IOMMUFD_MAP, &longer, sizeof longer, 0, NULL));
	told("crowded: why: no place, -28", mappings, -IOMMUFD_ENOSPC, explained(&longer));
}

int main(void)
{
	calls(0);
	calls(IOMMUFD_MAPPINGS);
	return 0;
}
