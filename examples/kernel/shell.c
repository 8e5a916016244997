#include "shell.h"
#include "machine.h"

/*
 * The table, the pins and the hardware tables change together, under one lock. It is never taken in an interrupt handler: the handler would wait for who it interrupted.
 * A handler notes what happened, and the work is done afterwards.
 */
static void lock(struct shell *k)
{
	while (__atomic_exchange_n(&k->locked, 1, __ATOMIC_ACQUIRE))
		;
}

static void unlock(struct shell *k)
{
	__atomic_store_n(&k->locked, 0, __ATOMIC_RELEASE);
}

/* ---- memory and the IOMMU */

static int is_paged(uint64_t start, uint64_t length, uint64_t pages)
{
	return start % PAGE == 0 && length % PAGE == 0 && start / PAGE <= pages && length / PAGE <= pages - start / PAGE;
}

static int is_carried(const struct iommufd_mapping *m)
{
	return is_paged(m->memory, m->length, MEMORY) && m->address >= BASE && is_paged(m->address - BASE, m->length, WINDOW);
}

static void pin(struct shell *k, uint64_t memory, uint64_t length, int by)
{
	for (uint64_t p = memory / PAGE; p < (memory + length) / PAGE; p++)
		k->pins[p] = (uint16_t)(k->pins[p] + by);
}

/* The IOMMU's entries of a mapping: with its memory and rights, or shut. */
static void program(struct shell *k, const struct iommufd_mapping *m, int open)
{
	uint64_t *entries = &k->hardware[m->space - 1][(m->address - BASE) / PAGE];

	for (uint64_t p = 0; p < m->length / PAGE; p++)
		entries[p] = open ? (m->memory + p * PAGE) | m->rights : 0;
}

/* Here a board tells its IOMMU to forget translations, and waits until it has. */
static void flush(struct shell *k)
{
	k->flushes++;
}

/* ---- commands */

/* A command in the kernel's own memory, longer than each of the seven. */
union command {
	uint8_t bytes[64];
	struct iommufd_destroy_cmd destroy;
	struct iommufd_copy_cmd copy;
	struct iommufd_map_cmd map;
	struct iommufd_unmap_cmd unmap;
};

static uint32_t rights_of(uint32_t flags)
{
	return (flags & IOMMUFD_WRITEABLE ? IOMMUFD_RIGHT_WRITE : 0) | (flags & IOMMUFD_READABLE ? IOMMUFD_RIGHT_READ : 0);
}

/* The mapping that stands at a place of the index, or NULL behind the last. */
static const struct iommufd_mapping *listed(const struct shell *k, size_t place)
{
	const uint64_t number = place < IOMMUFD_INDEX_WORDS ? k->table.index[place] : 0;

	return number ? &k->table.mappings[number - 1] : NULL;
}

static uint64_t memory_at(const struct shell *k, uint32_t space, uint64_t address)
{
	const struct iommufd_mapping *m;

	for (size_t i = 0; (m = listed(k, i)) != NULL; i++)
		if (m->space == space && m->address == address)
			return m->memory;
	return UINT64_MAX;
}

/* The mapping that an accepted MAP or COPY makes, as far as the hardware cares. */
static struct iommufd_mapping made_by(const struct shell *k, uint32_t request, const union command *c)
{
	if (request == IOMMUFD_MAP)
		return (struct iommufd_mapping){ .space = c->map.space, .rights = rights_of(c->map.flags), .address = c->map.address, .length = c->map.length, .memory = c->map.memory };
	return (struct iommufd_mapping){ .space = c->copy.target,
		                         .rights = rights_of(c->copy.flags),
		                         .address = c->copy.target_address,
		                         .length = c->copy.length,
		                         .memory = memory_at(k, c->copy.source, c->copy.source_address) };
}

/* Asks why a MAP or a COPY was refused and keeps it, for who looks after the drivers. The lock is still held, so that the table is the one that was judged. */
static int32_t refused(struct shell *k, uint32_t request, const union command *c, size_t size, int32_t result)
{
	int32_t told = iommufd_table_explain(&k->table, request, c, size, &k->why);

	k->calls++;
	if (told == 0 && k->why.reason < REASONS && k->why.error == (uint64_t)-result)
		k->reasons[k->why.reason]++;
	else
		k->surprises++;
	return result;
}

/*
 * MAP and COPY: ask beforehand, hold the pages, write the IOMMU's table, and only then let the archive's table change. Whatever this board cannot do is found out before
 * that, so there is nothing to undo in the archive's table.
 */
static int32_t add(struct shell *k, uint32_t request, union command *c, size_t size)
{
	union command asked = *c;
	struct iommufd_mapping m;
	int32_t result = iommufd_table_preview(&k->table, request, &asked, size, NULL, 0);

	k->calls++;
	if (result != 0)
		return refused(k, request, c, size, result);
	m = made_by(k, request, &asked);
	if (!is_carried(&m))
		return -IOMMUFD_EFAULT;
	pin(k, m.memory, m.length, 1);
	program(k, &m, 1);
	result = iommufd_table_call(&k->table, request, c, size, NULL, 0);
	k->calls++;
	if (result != 0) { /* the table was locked since it was asked: this cannot be */
		k->surprises++;
		program(k, &m, 0);
		pin(k, m.memory, m.length, -1);
	}
	return result;
}

static uint64_t last_of(const struct iommufd_unmap_cmd *c)
{
	return c->address == 0 && c->length == UINT64_MAX ? UINT64_MAX : c->address + (c->length - 1);
}

static int32_t next(struct shell *k, uint32_t space, uint64_t address)
{
	k->calls++;
	return iommufd_table_next(&k->table, space, address);
}

/* Notes the mappings of a space that share an address with a range, and gives their number; of an id that is no space there are none, as where a device is destroyed. */
static size_t note_going(struct shell *k, uint32_t space, uint64_t first, uint64_t last)
{
	size_t going = 0;
	uint64_t a, end;
	int32_t r;

	for (a = first; (r = next(k, space, a)) > 0 && k->table.mappings[r - 1].address <= last; a = end + 1) {
		k->going[going] = k->table.mappings[r - 1];
		end = k->going[going].address + (k->going[going].length - 1);
		going++;
		if (end == UINT64_MAX)
			break;
	}
	return going;
}

/*
 * UNMAP and DESTROY: ask beforehand, shut what goes in the IOMMU's table, have the IOMMU forget it, and only then let the archive's table change and the pages go. What
 * goes is asked for before, one mapping after another: those of the space that share an address with the range. An accepted UNMAP cuts none of them.
 */
static int32_t take_away(struct shell *k, uint32_t request, union command *c, size_t size)
{
	union command asked = *c;
	uint32_t space = request == IOMMUFD_UNMAP ? c->unmap.space : c->destroy.id;
	uint64_t first = request == IOMMUFD_UNMAP ? c->unmap.address : 0, last = request == IOMMUFD_UNMAP ? last_of(&c->unmap) : UINT64_MAX;
	size_t going;
	int32_t result = iommufd_table_preview(&k->table, request, &asked, size, NULL, 0);

	k->calls++;
	if (result != 0)
		return result;
	going = note_going(k, space, first, last);
	for (size_t i = 0; i < going; i++)
		program(k, &k->going[i], 0);
	if (going)
		flush(k);
	result = iommufd_table_call(&k->table, request, c, size, NULL, 0);
	k->calls++;
	k->surprises += result != 0;
	for (size_t i = 0; i < going; i++)
		pin(k, k->going[i].memory, k->going[i].length, -1);
	return result;
}

int32_t shell_command(struct shell *k, uint32_t request, void *theirs, size_t size, void *their_area, size_t area_size)
{
	union command c;
	uint8_t area[16 * 8];
	int32_t result;

	if (size > sizeof c || area_size > sizeof area)
		return -IOMMUFD_E2BIG;
	/* once: what is judged and what is done are the same bytes, whatever the driver does to its own meanwhile */
	memset(&c, 0, sizeof c);
	memcpy(&c, theirs, size);
	memcpy(area, their_area, area_size);
	lock(k);
	if (request == IOMMUFD_MAP || request == IOMMUFD_COPY) {
		result = add(k, request, &c, size);
	} else if (request == IOMMUFD_UNMAP || request == IOMMUFD_DESTROY) {
		result = take_away(k, request, &c, size);
	} else {
		result = iommufd_table_call(&k->table, request, &c, size, area, area_size);
		k->calls++;
	}
	unlock(k);
	if (result == 0 || result == -IOMMUFD_EMSGSIZE) {
		memcpy(theirs, &c, size);
		memcpy(their_area, area, area_size);
	}
	return result;
}

/* ---- host calls */

int32_t shell_start(struct shell *k, uint64_t limit)
{
	memset(k->hardware, 0, sizeof k->hardware);
	memset(k->pins, 0, sizeof k->pins);
	memset(&k->why, 0, sizeof k->why);
	k->calls++;
	return iommufd_table_fresh(&k->table, limit);
}

int32_t shell_bind(struct shell *k, uint64_t bitmap, uint64_t reserved_start, uint64_t reserved_last)
{
	const struct iommufd_reserved reserved = { .count = 2, .starts = { 0, reserved_start }, .lasts = { BASE - 1, reserved_last } };
	int32_t result;

	lock(k);
	result = iommufd_table_bind(&k->table, bitmap, &reserved);
	k->calls++;
	unlock(k);
	return result;
}

/* A board points the device at its space's table here, once the archive has agreed. */
int32_t shell_attach(struct shell *k, uint32_t device, uint32_t space)
{
	int32_t result;

	lock(k);
	result = iommufd_table_attach(&k->table, device, space);
	k->calls++;
	unlock(k);
	return result;
}

int32_t shell_detach(struct shell *k, uint32_t device)
{
	int32_t result;

	lock(k);
	result = iommufd_table_detach(&k->table, device);
	if (result == 0)
		flush(k);
	k->calls++;
	unlock(k);
	return result;
}

struct iommufd_number shell_reach(struct shell *k, uint32_t device, uint64_t address, uint64_t length, uint32_t write)
{
	struct iommufd_number number;

	lock(k);
	number = iommufd_table_reach(&k->table, device, address, length, write);
	k->calls++;
	unlock(k);
	return number;
}

int shell_agrees(struct shell *k, uint32_t device, uint32_t space, uint64_t page)
{
	const uint64_t entry = k->hardware[space - 1][page];
	const uint64_t address = BASE + page * PAGE;
	const struct iommufd_number read = shell_reach(k, device, address, PAGE, 0), write = shell_reach(k, device, address, PAGE, 1);

	if (entry == 0)
		return read.result == -IOMMUFD_EFAULT && write.result == -IOMMUFD_EFAULT;
	return read.result == (entry & IOMMUFD_RIGHT_READ ? 0 : -IOMMUFD_EPERM) && write.result == (entry & IOMMUFD_RIGHT_WRITE ? 0 : -IOMMUFD_EPERM) &&
	       (read.result != 0 || read.value == entry - entry % PAGE) && (write.result != 0 || write.value == entry - entry % PAGE) &&
	       k->pins[entry / PAGE] != 0;
}
