/*
 * The map from device addresses to memory, for a kernel that links libiommufd.a (x86-64, aarch64 or riscv64).
 *
 * A table lies in the caller's memory: a head with 32 object records, 128 mapping records, and an index of 128 words that lists the mapping records in use in their
 * order. Every call answers for any contents of that memory, any bytes and any numbers: a table that the rules call bad, an index that does not agree with the records,
 * or a count of records or of words that is not 128, is answered with -IOMMUFD_EUCLEAN and left as it was. A refusal writes nothing; the one exception is
 * -IOMMUFD_EMSGSIZE of IOVA_RANGES, which tells the full count and writes the ranges that had room. No good table is made bad.
 *
 * What the caller owes:
 *  - The index is part of the table, and the calls keep it: nobody else writes it, and who copies a table or keeps it for later copies its index with it.
 *  - While a call runs, nobody else writes the table, the command or the range area, and no second call runs on the same table: a lock around each. An interrupt
 *    may come at any time, on the same stack too, as long as its handler keeps away from the table; the code keeps nothing below the stack pointer.
 *  - The lent parts do not overlap, and lie where the header says that they lie: a head, records, an index and an explanation at a multiple of 8, a command and a
 *    range area anywhere. A pointer whose length or count is 0 is not followed and may be NULL; any other is not NULL. The contents have been written at some time, if
 *    only with zeros: iommufd_fresh is the one call that takes memory which nobody has written yet; no answer of it hangs on what was there. An explanation is never read.
 *  - IOMMUFD_STACK bytes of stack below the call of an entry; the inline function of a host call has ten words beside that, in its own frame or its caller's. A
 *    frame of more than a page touches its pages one after another, so that a guard page below the stack catches one that is too short. Where a call is made the
 *    stack pointer is a multiple of 8 on x86-64, of 16 on aarch64 and riscv64; for the rest the platform's calling convention for C holds.
 *  - memcpy, memmove and memset to link with, as C defines them. Their own stack is not counted in IOMMUFD_STACK, and what registers they use is theirs to know.
 * What the caller need not give: vector or floating registers (no instruction uses one), a red zone, memory to allocate from, a way to block. No entry loops without end
 * or calls out, but for the three above.
 *
 * `last` is inclusive throughout. A page is 4,096 bytes. Linux's own names stand in brackets: the commands and their bytes are those of its iommufd.
 */
#ifndef IOMMUFD_H
#define IOMMUFD_H

#include <stddef.h>
#include <stdint.h>

#ifdef __cplusplus
#define IOMMUFD_SIZE(type, bytes) static_assert(sizeof(type) == (bytes), #type)
#define IOMMUFD_ALIGN(type, bytes) static_assert(alignof(type) == (bytes), #type)
extern "C" {
#else
#define IOMMUFD_SIZE(type, bytes) _Static_assert(sizeof(type) == (bytes), #type)
#define IOMMUFD_ALIGN(type, bytes) _Static_assert(_Alignof(type) == (bytes), #type)
#endif

/* The archive takes the head as words of 64 bits, two fields of 32 bits in one of them: the struct below is these words on a little-endian machine alone. */
#if !defined(__BYTE_ORDER__) || __BYTE_ORDER__ != __ORDER_LITTLE_ENDIAN__
#error "iommufd.h: a little-endian machine is needed"
#endif
IOMMUFD_SIZE(size_t, 8);

/*
 * Goes up with every change of this header or of an answer. A kernel may compare it with iommufd_archive_version, which is the one that its archive was built with.
 *
 * What changed with 4: iommufd_explain, which says why a MAP or a COPY is refused, stands beside the other entries; nothing else is another.
 *
 * What changed with 3: a table has an index. struct iommufd_table is longer by it, at its end, and the iommufd_table_.. functions take what they took. Who lends
 * a table in parts lends the index as `beside`, where nothing was lent, and iommufd_fresh and its kin take it too; two inline functions that lent nothing there
 * have gone, and iommufd_call and iommufd_preview are what they were for. A table that was kept from before needs the index that agrees with it. With that index
 * no answer is another, but that a host call of kind 6, iommufd_next, is none that is unknown any more.
 */
#define IOMMUFD_VERSION 4
extern const uint32_t iommufd_archive_version;
/* The commit that the archive was built from, as text, with a + behind it if the tree had changes that were not committed; `unknown` if it was no git tree. */
extern const char iommufd_archive_commit[];

/* The stack of the deepest call, at least; the gate measures it on each archive (docs/PERFORMANCE.md). */
#define IOMMUFD_STACK 8192

#define IOMMUFD_OBJECTS 32
#define IOMMUFD_MAPPINGS 128
#define IOMMUFD_INDEX_WORDS 128

/* ---- the table */

/* What an object record is. Any other kind makes the table bad. */
enum iommufd_kind {
	IOMMUFD_FREE = 0,
	IOMMUFD_SPACE = 1,    /* [IOAS] */
	IOMMUFD_LOOSE = 2,    /* a device that is attached to nothing */
	IOMMUFD_ATTACHED = 3, /* a device that is attached to the space `home` */
};

/* Object i of the head has the id i + 1. A field that its kind does not use is 0, and so is an unused place of a list. */
struct iommufd_object {
	uint32_t kind;
	uint32_t home;
	uint64_t bitmap; /* a device's page sizes, a bit each */
	uint32_t reserved_count;
	uint32_t allow_count;
	uint64_t reserved_starts[4]; /* a device's reserved ranges */
	uint64_t reserved_lasts[4];
	uint64_t allow_starts[8]; /* a space's allow list */
	uint64_t allow_lasts[8];
};
IOMMUFD_SIZE(struct iommufd_object, 216);

struct iommufd_head {
	uint64_t limit; /* the most pages that may be charged, at most 2^36 */
	struct iommufd_object objects[IOMMUFD_OBJECTS];
};
IOMMUFD_SIZE(struct iommufd_head, 6920);
IOMMUFD_ALIGN(struct iommufd_head, 8);

#define IOMMUFD_RIGHT_WRITE 1u
#define IOMMUFD_RIGHT_READ 2u

/* A released record is all zero. */
struct iommufd_mapping {
	uint32_t space;
	uint32_t rights;
	uint32_t founder; /* 1 where the MAP that founded the backing was writeable */
	uint32_t backing; /* 1 to 128; mappings of one backing share its memory and its charge */
	uint64_t address; /* [iova] */
	uint64_t length;
	uint64_t memory; /* [user_va] */
};
IOMMUFD_SIZE(struct iommufd_mapping, 40);
IOMMUFD_ALIGN(struct iommufd_mapping, 8);

/*
 * A table whole, for a caller that holds it in one place: what iommufd_table_call and its kin below take. Later parts are added at its end.
 *
 * The index has the number of each mapping record in use once, n for mappings[n - 1]: the space with the lowest id first, in a space the lowest address first, and
 * zeros behind the last. One index agrees with a table, that of an empty table is all zeros, and any other makes the table bad, whatever the call. A kernel may
 * read it: the mappings of a space stand in it side by side, in ascending address.
 */
struct iommufd_table {
	struct iommufd_head head;
	struct iommufd_mapping mappings[IOMMUFD_MAPPINGS];
	uint64_t index[IOMMUFD_INDEX_WORDS];
};
IOMMUFD_SIZE(struct iommufd_table, 13064);

/* The reserved ranges of a device to bind: the first `count`, at most 4. `spare` and what stands behind them are not read. */
struct iommufd_reserved {
	uint32_t count;
	uint32_t spare;
	uint64_t starts[4];
	uint64_t lasts[4];
};
IOMMUFD_SIZE(struct iommufd_reserved, 72);

/* A result with a number beside it; the number is 0 beside a refusal. */
struct iommufd_number {
	int32_t result;
	uint64_t value;
};
IOMMUFD_SIZE(struct iommufd_number, 16);

/* ---- the errnos: a result is 0 or the negative of one of these, whatever the kernel's own numbers are */

#define IOMMUFD_EPERM 1
#define IOMMUFD_ENOENT 2
#define IOMMUFD_E2BIG 7
#define IOMMUFD_ENOMEM 12
#define IOMMUFD_EFAULT 14
#define IOMMUFD_EBUSY 16
#define IOMMUFD_EEXIST 17
#define IOMMUFD_EINVAL 22
#define IOMMUFD_ENOTTY 25
#define IOMMUFD_ENOSPC 28
#define IOMMUFD_EOVERFLOW 75
#define IOMMUFD_EMSGSIZE 90
#define IOMMUFD_EOPNOTSUPP 95
#define IOMMUFD_EADDRINUSE 98
#define IOMMUFD_EUCLEAN 117

/* What a result means, for people. */
static inline const char *iommufd_errno_text(int32_t result)
{
	if (result >= 0)
		return "done";
	switch (-(int64_t)result) {
	case IOMMUFD_EPERM: return "the right to read or to write is not held";
	case IOMMUFD_ENOENT: return "no such object, mapping or source";
	case IOMMUFD_E2BIG: return "bytes beyond the command's known size are not zero";
	case IOMMUFD_ENOMEM: return "no record left, allow list too long, or charge above the limit";
	case IOMMUFD_EFAULT: return "too few bytes lent, or the address is not mapped";
	case IOMMUFD_EBUSY: return "the object is in use, or the device is attached already";
	case IOMMUFD_EEXIST: return "an address is mapped already";
	case IOMMUFD_EINVAL: return "a field is out of its rule";
	case IOMMUFD_ENOTTY: return "no such request";
	case IOMMUFD_ENOSPC: return "no place is long enough";
	case IOMMUFD_EOVERFLOW: return "a range ends past the last address";
	case IOMMUFD_EMSGSIZE: return "more ranges than there was room for";
	case IOMMUFD_EOPNOTSUPP: return "an unknown flag, or a reserved field that is not zero";
	case IOMMUFD_EADDRINUSE: return "a reserved range stands against what is mapped or allowed";
	case IOMMUFD_EUCLEAN: return "the table is damaged";
	default: return "no errno of this interface";
	}
}

/*
 * ---- the commands. A request number with the bytes of a command, little-endian, as a driver sends them.
 *
 * Before a command's own checks, for each of them, in this order:
 *   117  the table is bad, or its index another than the one that agrees with it
 *    25  the request is none of these
 *    14  fewer than 4 bytes are lent
 *    22  `size` is below the size of the command's struct
 *    14  `size` is above the number of bytes lent
 *     7  of the bytes from the struct's end up to `size` one is not zero; what is lent beyond `size` is not looked at
 * Then its own, in the order given with it; the first that fails is the answer. An accepted command writes the fields marked `written` and no other byte of the command, and
 * of the table no record that does not change; behind it the index agrees with the records.
 *
 * Words: the alignment of a space is the largest of its devices' smallest pages, 1 with no device. Reserved is what a device attached to the space reserves.
 */

#define IOMMUFD_DESTROY 0x3B80u     /* [IOMMU_DESTROY] */
#define IOMMUFD_IOAS_ALLOC 0x3B81u  /* [IOMMU_IOAS_ALLOC] */
#define IOMMUFD_ALLOW_IOVAS 0x3B82u /* [IOMMU_IOAS_ALLOW_IOVAS] */
#define IOMMUFD_COPY 0x3B83u        /* [IOMMU_IOAS_COPY] */
#define IOMMUFD_IOVA_RANGES 0x3B84u /* [IOMMU_IOAS_IOVA_RANGES] */
#define IOMMUFD_MAP 0x3B85u         /* [IOMMU_IOAS_MAP] */
#define IOMMUFD_UNMAP 0x3B86u       /* [IOMMU_IOAS_UNMAP] */

/* Flags of MAP and COPY. */
#define IOMMUFD_FIXED 1u     /* [IOMMU_IOAS_MAP_FIXED_IOVA] at the address given, not at the lowest that is permitted */
#define IOMMUFD_WRITEABLE 2u /* [IOMMU_IOAS_MAP_WRITEABLE] */
#define IOMMUFD_READABLE 4u  /* [IOMMU_IOAS_MAP_READABLE] */

/*
 * DESTROY [struct iommu_destroy]: a space with all its mappings goes, or a device that is attached to nothing.
 *     2  no object has the id
 *    16  a device that is attached, or a space that a device is attached to
 */
struct iommufd_destroy_cmd {
	uint32_t size; /* [size] */
	uint32_t id;   /* [id] */
};
IOMMUFD_SIZE(struct iommufd_destroy_cmd, 8);

/*
 * IOAS_ALLOC [struct iommu_ioas_alloc]: a new space in the lowest free object record.
 *    95  a flag
 *    12  no object record is free
 */
struct iommufd_ioas_alloc_cmd {
	uint32_t size;   /* [size] */
	uint32_t flags;  /* [flags] */
	uint32_t out_id; /* [out_ioas_id] written */
};
IOMMUFD_SIZE(struct iommufd_ioas_alloc_cmd, 12);

/*
 * ALLOW_IOVAS [struct iommu_ioas_allow_iovas]: `count` ranges of the range area become the allow list of a space, in their order; none empties it. Mappings stay.
 *    95  `reserved` is not 0
 *     2  no such space
 *    12  more than 8 ranges
 *    14  the range area is shorter than 16 bytes a range
 *    22  a start above its last, or two ranges that share an address
 *    98  a range that touches a reserved one
 */
struct iommufd_allow_iovas_cmd {
	uint32_t size;     /* [size] */
	uint32_t space;    /* [ioas_id] */
	uint32_t count;    /* [num_iovas] */
	uint32_t reserved; /* [__reserved] */
	uint64_t pointer;  /* [allowed_iovas] not read: the list is in the range area */
};
IOMMUFD_SIZE(struct iommufd_allow_iovas_cmd, 24);

/*
 * COPY [struct iommu_ioas_copy]: one more mapping of a mapping's memory, in the same space or another; no new charge.
 *    95  a flag above READABLE
 *    22  neither WRITEABLE nor READABLE
 *    22  a length of 0 or above 2^40
 *    75  source_address + length - 1 passes 2^64 - 1
 *    75  FIXED, and target_address + length - 1 passes 2^64 - 1
 *     2  no such target space
 *     2  no such source space
 *     2  the source space has no mapping with exactly this address and length
 *     1  WRITEABLE, and the MAP that the source goes back to was not
 * then as MAP in the target space: the alignment, what is reserved or mapped, or a place; and
 *    12  no mapping record is free
 */
struct iommufd_copy_cmd {
	uint32_t size;           /* [size] */
	uint32_t flags;          /* [flags] */
	uint32_t target;         /* [dst_ioas_id] */
	uint32_t source;         /* [src_ioas_id] */
	uint64_t length;         /* [length] */
	uint64_t target_address; /* [dst_iova] written */
	uint64_t source_address; /* [src_iova] */
};
IOMMUFD_SIZE(struct iommufd_copy_cmd, 40);

/*
 * IOVA_RANGES [struct iommu_ioas_iova_ranges]: what no device of a space reserves, as the fewest ranges, ascending, into the range area; allow list and mappings play no part.
 *    95  `reserved` is not 0
 *     2  no such space
 *    14  the range area is shorter than 16 bytes for each of `count`
 *    90  there are more than `count`: those that fit, the full number and the alignment are written all the same
 */
struct iommufd_iova_ranges_cmd {
	uint32_t size;      /* [size] */
	uint32_t space;     /* [ioas_id] */
	uint32_t count;     /* [num_iovas] room in the range area; the full number is written */
	uint32_t reserved;  /* [__reserved] */
	uint64_t pointer;   /* [allowed_iovas] not read: the list is in the range area */
	uint64_t alignment; /* [out_iova_alignment] written */
};
IOMMUFD_SIZE(struct iommufd_iova_ranges_cmd, 32);

/*
 * MAP [struct iommu_ioas_map]: `length` bytes of memory at a device address of a space, with a backing of their own.
 *    95  a flag above READABLE, or `reserved` is not 0
 *    22  neither WRITEABLE nor READABLE
 *    22  a length of 0 or above 2^40
 *    75  memory + length - 1 passes 2^64 - 1
 *    75  FIXED, and address + length - 1 passes 2^64 - 1
 *     2  no such space
 * FIXED, where the allow list has no say:
 *    22  address or address + length is no multiple of the alignment
 *    22  it touches what is reserved
 *    17  it touches a mapping of the space
 * not FIXED:
 *    22  length is no multiple of the alignment
 *    28  no place: a multiple of the alignment from which the length touches nothing reserved or mapped, inside one range of the allow list if there is one
 * and then
 *    12  no mapping record is free
 *    12  the pages that the memory touches would bring the charge above the limit
 * The lowest place is taken.
 */
struct iommufd_map_cmd {
	uint32_t size;     /* [size] */
	uint32_t flags;    /* [flags] */
	uint32_t space;    /* [ioas_id] */
	uint32_t reserved; /* [__reserved] */
	uint64_t memory;   /* [user_va] */
	uint64_t length;   /* [length] */
	uint64_t address;  /* [iova] written */
};
IOMMUFD_SIZE(struct iommufd_map_cmd, 40);

/*
 * UNMAP [struct iommu_ioas_unmap]: the mappings inside a range go. Address 0 with length 2^64 - 1 is every address of the space, also the last, and succeeds on none.
 *    22  a length of 0
 *    75  address + length - 1 passes 2^64 - 1
 *     2  no such space
 *     2  a mapping that the range cuts; every mapping stays then
 *     2  no mapping inside the range
 */
struct iommufd_unmap_cmd {
	uint32_t size;    /* [size] */
	uint32_t space;   /* [ioas_id] */
	uint64_t address; /* [iova] */
	uint64_t length;  /* [length] written: the bytes removed */
};
IOMMUFD_SIZE(struct iommufd_unmap_cmd, 24);

/* A range of the range area [struct iommu_iova_range]. */
struct iommufd_range {
	uint64_t start; /* [start] */
	uint64_t last;  /* [last] */
};
IOMMUFD_SIZE(struct iommufd_range, 16);

/*
 * ---- the entries: the four functions of the archive. Every other function stands in this header and hands on to them; for a host call, and for a table whole,
 * it is simpler to call those.
 *
 * `count` is the number of mapping records that are lent. `beside` is what stands beside head and records, as words: the index, and `beside_count` is the number of
 * its words. Either count has to be 128, or the table is bad.
 */

/* A driver's command: 0, or the negative of the first check that fails. */
int32_t iommufd_call(struct iommufd_head *head, struct iommufd_mapping *mappings, size_t count, uint64_t *beside, size_t beside_count, uint32_t request,
                     void *command, size_t command_size, void *area, size_t area_size);

/* What iommufd_call would answer now, with the same bytes written into the command and the range area; the table is only read, its index too. */
int32_t iommufd_preview(const struct iommufd_head *head, const struct iommufd_mapping *mappings, size_t count, const uint64_t *beside, size_t beside_count,
                        uint32_t request, void *command, size_t command_size, void *area, size_t area_size);

/* Why a MAP or a COPY is refused: the first of its checks that fails, those of the opening too. A number is never given to another reason. */
enum iommufd_reason {
	IOMMUFD_REASON_ACCEPTED = 0, /* none: the call would be accepted */
	IOMMUFD_REASON_NO_SIZE_FIELD = 1,
	IOMMUFD_REASON_SIZE_TOO_SMALL = 2,
	IOMMUFD_REASON_SIZE_PAST_BYTES = 3,
	IOMMUFD_REASON_TAIL_NOT_ZERO = 4,
	IOMMUFD_REASON_FLAGS = 5, /* an unknown flag, or MAP's `reserved`: one check */
	IOMMUFD_REASON_NO_RIGHT = 6,
	IOMMUFD_REASON_WRONG_LENGTH = 7,
	IOMMUFD_REASON_MEMORY_PASSES = 8, /* of MAP alone */
	IOMMUFD_REASON_SOURCE_PASSES = 9, /* of COPY alone */
	IOMMUFD_REASON_ADDRESS_PASSES = 10,
	IOMMUFD_REASON_NO_SPACE = 11,        /* MAP's space, COPY's target */
	IOMMUFD_REASON_NO_SOURCE_SPACE = 12, /* of COPY alone, as the two below */
	IOMMUFD_REASON_NO_SOURCE = 13,
	IOMMUFD_REASON_NOT_WRITEABLE = 14,
	IOMMUFD_REASON_MISALIGNED = 15,
	IOMMUFD_REASON_TOUCHES_RESERVED = 16, /* `number` is the lowest id of an object that reserves an address of the range */
	IOMMUFD_REASON_TOUCHES_MAPPING = 17,  /* `number` is the lowest number of a mapping record that has an address of it, n for mappings[n - 1] */
	IOMMUFD_REASON_LENGTH_MISALIGNED = 18,
	IOMMUFD_REASON_NO_PLACE = 19, /* `start` and `length` are the longest free run */
	IOMMUFD_REASON_NO_RECORD = 20,
	IOMMUFD_REASON_OVER_LIMIT = 21, /* of MAP alone */
};

/* What a reason means, for people. */
static inline const char *iommufd_reason_text(uint64_t reason)
{
	switch (reason) {
	case IOMMUFD_REASON_ACCEPTED: return "nothing stands in the way";
	case IOMMUFD_REASON_NO_SIZE_FIELD: return "fewer than the four bytes of the size field are lent";
	case IOMMUFD_REASON_SIZE_TOO_SMALL: return "the size field is below the size of the command";
	case IOMMUFD_REASON_SIZE_PAST_BYTES: return "the size field is above the number of bytes lent";
	case IOMMUFD_REASON_TAIL_NOT_ZERO: return "a byte behind the command's fields is not zero";
	case IOMMUFD_REASON_FLAGS: return "a flag is unknown, or the reserved field is not zero";
	case IOMMUFD_REASON_NO_RIGHT: return "neither the right to write nor the right to read is asked";
	case IOMMUFD_REASON_WRONG_LENGTH: return "the length is 0 or above 2^40";
	case IOMMUFD_REASON_MEMORY_PASSES: return "the memory ends past the last address";
	case IOMMUFD_REASON_SOURCE_PASSES: return "the source ends past the last address";
	case IOMMUFD_REASON_ADDRESS_PASSES: return "the fixed range ends past the last address";
	case IOMMUFD_REASON_NO_SPACE: return "there is no such space";
	case IOMMUFD_REASON_NO_SOURCE_SPACE: return "there is no such source space";
	case IOMMUFD_REASON_NO_SOURCE: return "the source space has no mapping with this address and length";
	case IOMMUFD_REASON_NOT_WRITEABLE: return "the right to write is asked, and the founding MAP did not have it";
	case IOMMUFD_REASON_MISALIGNED: return "the address or the end is no multiple of the space's alignment";
	case IOMMUFD_REASON_TOUCHES_RESERVED: return "the range touches what a device reserves";
	case IOMMUFD_REASON_TOUCHES_MAPPING: return "the range touches a mapping";
	case IOMMUFD_REASON_LENGTH_MISALIGNED: return "the length is no multiple of the space's alignment";
	case IOMMUFD_REASON_NO_PLACE: return "no free place is long enough";
	case IOMMUFD_REASON_NO_RECORD: return "no mapping record is free";
	case IOMMUFD_REASON_OVER_LIMIT: return "the charge would pass the limit";
	default: return "no reason of this interface";
	}
}

/* A reason with what it names. What a reason does not name is 0. */
struct iommufd_explanation {
	uint64_t reason; /* enum iommufd_reason */
	uint64_t error;  /* the errno that the call would answer, as a positive number; 0 beside IOMMUFD_REASON_ACCEPTED alone */
	uint64_t number; /* an object's id, or the number of a mapping record */
	uint64_t start;  /* the longest free run */
	uint64_t length; /* its length; 0 where there is no run */
};
IOMMUFD_SIZE(struct iommufd_explanation, 40);
IOMMUFD_ALIGN(struct iommufd_explanation, 8);

/*
 * Why iommufd_call would refuse this MAP or COPY now: 0, with the first failing check written to `explanation`; or, and then it stays,
 *   -117  the table is bad
 *    -25  the request is neither MAP nor COPY
 * Table and command are only read. A longest free run starts at a multiple of the alignment, touches nothing reserved or mapped, and lies inside one range of the
 * allow list if there is one; it need not end on a multiple. It is shorter than the length asked, and the lowest of those that are as long; length 0 says that no
 * multiple is free. Unlike the other entries this one may look at every record for every range: the most that was measured stands in docs/PERFORMANCE.md.
 */
int32_t iommufd_explain(const struct iommufd_head *head, const struct iommufd_mapping *mappings, size_t count, const uint64_t *beside, size_t beside_count,
                        uint32_t request, const void *command, size_t command_size, struct iommufd_explanation *explanation);

/* The host calls, and the numbers that each takes, a word each from the first on. */
enum iommufd_host_kind {
	IOMMUFD_HOST_FRESH = 0,  /* limit */
	IOMMUFD_HOST_BIND = 1,   /* bitmap, count of the reserved ranges, four starts, four lasts */
	IOMMUFD_HOST_ATTACH = 2, /* device, space */
	IOMMUFD_HOST_DETACH = 3, /* device */
	IOMMUFD_HOST_REACH = 4,  /* device, address, length, write */
	IOMMUFD_HOST_CHARGE = 5, /* none */
	IOMMUFD_HOST_NEXT = 6,   /* space, address */
};
#define IOMMUFD_HOST_WORDS 10

/*
 * A host call: its kind, and its numbers in ten words at least. Of an id and of a count the low half of the word is read. The result is 0, and then the first
 * word is what the call tells: bind's id, reach's memory, charge's pages, next's record, 0 for attach and detach; fresh leaves it. Or, and then words and table stay,
 *    -14  fewer than ten words
 *    -25  the kind is none of these, whatever the table is
 * and behind these two what stands with the call's own function below.
 */
int32_t iommufd_host(struct iommufd_head *head, struct iommufd_mapping *mappings, size_t count, uint64_t *beside, size_t beside_count, uint32_t kind,
                     uint64_t *words, size_t words_count);

/*
 * ---- the host calls, for who holds the parts of a table where they like, with the index as `beside`; the names below them take a table whole. "The table is bad" is
 * also said of an index that does not agree. An accepted call leaves one that does.
 */

/*
 * Writes an empty table with a charge limit in pages, over whatever the memory held, with zeros for an index: 0, or
 *   -117  `count` or `beside_count` is not 128
 *    -22  the limit is above 2^36
 */
static inline int32_t iommufd_fresh(struct iommufd_head *head, struct iommufd_mapping *mappings, size_t count, uint64_t *beside, size_t beside_count,
                                    uint64_t limit)
{
	uint64_t words[IOMMUFD_HOST_WORDS] = { limit };

	return iommufd_host(head, mappings, count, beside, beside_count, IOMMUFD_HOST_FRESH, words, IOMMUFD_HOST_WORDS);
}

/*
 * A new device with its page sizes and reserved ranges, attached to nothing, in the lowest free object record. The result is its id, 1 to 32, or
 *   -117  the table is bad
 *    -22  no page size, or the smallest above 4,096; more than 4 ranges; a start above its last
 *    -12  no object record is free
 */
static inline int32_t iommufd_bind(struct iommufd_head *head, struct iommufd_mapping *mappings, size_t count, uint64_t *beside, size_t beside_count,
                                   uint64_t bitmap, struct iommufd_reserved reserved)
{
	uint64_t words[IOMMUFD_HOST_WORDS] = {
		bitmap,
		reserved.count,
		reserved.starts[0],
		reserved.starts[1],
		reserved.starts[2],
		reserved.starts[3],
		reserved.lasts[0],
		reserved.lasts[1],
		reserved.lasts[2],
		reserved.lasts[3],
	};
	int32_t result = iommufd_host(head, mappings, count, beside, beside_count, IOMMUFD_HOST_BIND, words, IOMMUFD_HOST_WORDS);

	return result < 0 ? result : (int32_t)words[0];
}

/*
 * A device to a space: 0, or
 *   -117  the table is bad
 *     -2  no such device
 *     -2  no such space
 *    -16  the device is attached already
 *    -98  one of its ranges touches a mapping or the allow list of the space
 *    -98  a mapping of the space does not fit the alignment that the space would get
 */
static inline int32_t iommufd_attach(struct iommufd_head *head, struct iommufd_mapping *mappings, size_t count, uint64_t *beside, size_t beside_count,
                                     uint32_t device, uint32_t space)
{
	uint64_t words[IOMMUFD_HOST_WORDS] = { device, space };

	return iommufd_host(head, mappings, count, beside, beside_count, IOMMUFD_HOST_ATTACH, words, IOMMUFD_HOST_WORDS);
}

/*
 * A device from its space; mappings stay: 0, or
 *   -117  the table is bad
 *     -2  no such device
 *    -22  it is attached to nothing
 */
static inline int32_t iommufd_detach(struct iommufd_head *head, struct iommufd_mapping *mappings, size_t count, uint64_t *beside, size_t beside_count,
                                     uint32_t device)
{
	uint64_t words[IOMMUFD_HOST_WORDS] = { device };

	return iommufd_host(head, mappings, count, beside, beside_count, IOMMUFD_HOST_DETACH, words, IOMMUFD_HOST_WORDS);
}

/*
 * The memory that a device gets to with `length` bytes at an address: for reading where `write` is 0, else for writing. The table is only read: of this kind and
 * of the two below it the entry writes neither head nor records nor index, so that the casts, which take `const` away, are right. 0 beside the memory's address exactly where the
 * bytes lie wholly inside one mapping of the device's space that has the right; else 0 beside
 *   -117  the table is bad
 *     -2  no such device
 *    -22  it is attached to nothing
 *    -22  a length of 0
 *    -75  address + length - 1 passes 2^64 - 1
 *    -14  not wholly inside one mapping
 *     -1  the mapping has not the right
 */
static inline struct iommufd_number iommufd_reach(const struct iommufd_head *head, const struct iommufd_mapping *mappings, size_t count, const uint64_t *beside,
                                                  size_t beside_count, uint32_t device, uint64_t address, uint64_t length, uint32_t write)
{
	uint64_t words[IOMMUFD_HOST_WORDS] = { device, address, length, write };
	struct iommufd_number number;

	number.result = iommufd_host((struct iommufd_head *)(uintptr_t)head, (struct iommufd_mapping *)(uintptr_t)mappings, count, (uint64_t *)(uintptr_t)beside,
	                             beside_count, IOMMUFD_HOST_REACH, words, IOMMUFD_HOST_WORDS);
	number.value = number.result < 0 ? 0 : words[0];
	return number;
}

/* The pages of all backings, each counted once; it never passes the limit. -117 if the table is bad. The table is only read. */
static inline struct iommufd_number iommufd_charge(const struct iommufd_head *head, const struct iommufd_mapping *mappings, size_t count, const uint64_t *beside,
                                                   size_t beside_count)
{
	uint64_t words[IOMMUFD_HOST_WORDS] = { 0 };
	struct iommufd_number number;

	number.result = iommufd_host((struct iommufd_head *)(uintptr_t)head, (struct iommufd_mapping *)(uintptr_t)mappings, count, (uint64_t *)(uintptr_t)beside,
	                             beside_count, IOMMUFD_HOST_CHARGE, words, IOMMUFD_HOST_WORDS);
	number.value = number.result < 0 ? 0 : words[0];
	return number;
}

/*
 * The mapping with the lowest address among those of a space that end at an address or behind it. The result is the number of its record, 1 to 128, n for
 * mappings[n - 1]; 0 where there is none; or
 *   -117  the table is bad
 *     -2  no such space
 * The table is only read. It is for who has something to do for each mapping of a range, such as to unpin what an UNMAP or a DESTROY takes. Before that call
 * runs, under the lock that holds until it has, from `address` to `last`:
 *
 *	for (a = address; (r = iommufd_next(.., space, a)) > 0 && mappings[r - 1].address <= last; a = end + 1) {
 *		.. note mappings[r - 1]: its address, length, memory, rights ..
 *		end = mappings[r - 1].address + (mappings[r - 1].length - 1);
 *		if (end == UINT64_MAX)
 *			break;
 *	}
 *
 * It sees every mapping that shares an address with the range, in ascending address, each once. These are what an accepted UNMAP of the range takes, which cuts
 * none. From 0 to UINT64_MAX they are what an accepted DESTROY of the space takes, and an UNMAP of address 0 with length 2^64 - 1.
 */
static inline int32_t iommufd_next(const struct iommufd_head *head, const struct iommufd_mapping *mappings, size_t count, const uint64_t *beside,
                                   size_t beside_count, uint32_t space, uint64_t address)
{
	uint64_t words[IOMMUFD_HOST_WORDS] = { space, address };
	int32_t result = iommufd_host((struct iommufd_head *)(uintptr_t)head, (struct iommufd_mapping *)(uintptr_t)mappings, count,
	                              (uint64_t *)(uintptr_t)beside, beside_count, IOMMUFD_HOST_NEXT, words, IOMMUFD_HOST_WORDS);

	return result < 0 ? result : (int32_t)words[0];
}

/* ---- the calls for a table whole. What stands beside head and records is handed on here, and no argument below changes for it. */

static inline int32_t iommufd_table_fresh(struct iommufd_table *table, uint64_t limit)
{
	return iommufd_fresh(&table->head, table->mappings, IOMMUFD_MAPPINGS, table->index, IOMMUFD_INDEX_WORDS, limit);
}

static inline int32_t iommufd_table_call(struct iommufd_table *table, uint32_t request, void *command, size_t command_size, void *area, size_t area_size)
{
	return iommufd_call(&table->head, table->mappings, IOMMUFD_MAPPINGS, table->index, IOMMUFD_INDEX_WORDS, request, command, command_size, area, area_size);
}

static inline int32_t iommufd_table_preview(const struct iommufd_table *table, uint32_t request, void *command, size_t command_size, void *area, size_t area_size)
{
	return iommufd_preview(&table->head, table->mappings, IOMMUFD_MAPPINGS, table->index, IOMMUFD_INDEX_WORDS, request, command, command_size, area, area_size);
}

static inline int32_t iommufd_table_explain(const struct iommufd_table *table, uint32_t request, const void *command, size_t command_size,
                                            struct iommufd_explanation *explanation)
{
	return iommufd_explain(&table->head, table->mappings, IOMMUFD_MAPPINGS, table->index, IOMMUFD_INDEX_WORDS, request, command, command_size, explanation);
}

static inline int32_t iommufd_table_bind(struct iommufd_table *table, uint64_t bitmap, const struct iommufd_reserved *reserved)
{
	return iommufd_bind(&table->head, table->mappings, IOMMUFD_MAPPINGS, table->index, IOMMUFD_INDEX_WORDS, bitmap, *reserved);
}

static inline int32_t iommufd_table_attach(struct iommufd_table *table, uint32_t device, uint32_t space)
{
	return iommufd_attach(&table->head, table->mappings, IOMMUFD_MAPPINGS, table->index, IOMMUFD_INDEX_WORDS, device, space);
}

static inline int32_t iommufd_table_detach(struct iommufd_table *table, uint32_t device)
{
	return iommufd_detach(&table->head, table->mappings, IOMMUFD_MAPPINGS, table->index, IOMMUFD_INDEX_WORDS, device);
}

static inline struct iommufd_number iommufd_table_reach(const struct iommufd_table *table, uint32_t device, uint64_t address, uint64_t length, uint32_t write)
{
	return iommufd_reach(&table->head, table->mappings, IOMMUFD_MAPPINGS, table->index, IOMMUFD_INDEX_WORDS, device, address, length, write);
}

static inline struct iommufd_number iommufd_table_charge(const struct iommufd_table *table)
{
	return iommufd_charge(&table->head, table->mappings, IOMMUFD_MAPPINGS, table->index, IOMMUFD_INDEX_WORDS);
}

static inline int32_t iommufd_table_next(const struct iommufd_table *table, uint32_t space, uint64_t address)
{
	return iommufd_next(&table->head, table->mappings, IOMMUFD_MAPPINGS, table->index, IOMMUFD_INDEX_WORDS, space, address);
}

#ifdef __cplusplus
}
#endif

#endif
