/* What a kernel puts around the archive: a lock, pages held in memory, the tables that its IOMMU walks. */
#ifndef SHELL_H
#define SHELL_H

#include "iommufd.h"

#define PAGE 4096u
#define BASE 0x40000000u /* the first device address that the IOMMU of this board translates; every device reserves what lies below */
#define WINDOW 1024u     /* pages from there on, for each space */
#define MEMORY 2048u     /* pages of memory */
#define REASONS (IOMMUFD_REASON_OVER_LIMIT + 1)

struct shell {
	struct iommufd_table table;
	int locked;
	uint64_t hardware[IOMMUFD_OBJECTS][WINDOW]; /* by space and device page: the memory's address with the rights in its low bits, or 0 */
	uint16_t pins[MEMORY];                      /* how many mappings hold a page of memory */
	struct iommufd_mapping going[IOMMUFD_MAPPINGS];
	struct iommufd_explanation why; /* of the last MAP or COPY that the archive refused */
	uint64_t reasons[REASONS];      /* how many it has refused, by their reasons */
	uint64_t calls;                 /* of the archive */
	uint64_t flushes;               /* of what the IOMMU remembers */
	uint64_t surprises;             /* where the archive did not answer as it had foretold, or told another errno than it answered */
};

/* A driver's command. `theirs` and `their_area` are the driver's memory. */
int32_t shell_command(struct shell *k, uint32_t request, void *theirs, size_t size, void *their_area, size_t area_size);

int32_t shell_start(struct shell *k, uint64_t limit);
/* A device that reserves a range of its own. */
int32_t shell_bind(struct shell *k, uint64_t bitmap, uint64_t reserved_start, uint64_t reserved_last);
int32_t shell_attach(struct shell *k, uint32_t device, uint32_t space);
int32_t shell_detach(struct shell *k, uint32_t device);
struct iommufd_number shell_reach(struct shell *k, uint32_t device, uint64_t address, uint64_t length, uint32_t write);

/* Whether the IOMMU would do with one page of a device what the archive says of it. */
int shell_agrees(struct shell *k, uint32_t device, uint32_t space, uint64_t page);

#endif
