/* A Dynamic Capacity Device of CXL 3.1 as a library, proved against its contracts. dcd(3) lists the calls, and docs/embed.md
   shows how to build a pool of memory on them and what is proved. */
#ifndef DCD_H
#define DCD_H

#include <stdbool.h>
#include <stddef.h>
#include <stdint.h>

#ifdef __cplusplus
extern "C" {
#endif

/* The version of this header. A library of the same major version serves a program that was compiled with it. */
#define DCD_VERSION_MAJOR 1
#define DCD_VERSION_MINOR 0
#define DCD_VERSION_PATCH 0
#define DCD_VERSION (DCD_VERSION_MAJOR << 16 | DCD_VERSION_MINOR << 8 | DCD_VERSION_PATCH)

/* The version of the library, in the form of DCD_VERSION. */
uint32_t dcd_version(void);

/* ---- what a call answers ----

   Of several statuses that hold, the first of this list, but that DCD_NO_MEMORY may stand for any and DCD_BAD_SIZE comes before
   all. Where it is not DCD_OK, the device is as it was before the call, except that a refused load or store is a step of the device too (one that changes no word), and what is at
   the caller's pointers is as it was, except where a line says what goes there. */
enum {
    DCD_OK = 0,
    DCD_NO_MEMORY = 1,        /* malloc answered null; the same call may be tried again later */
    DCD_CLOSED = 2,           /* the handle has no device */
    DCD_OPENED = 3,           /* dcd_open, dcd_open_with: the handle has a device already, and keeps it */
    DCD_BAD_HEAD = 4,         /* dcd_open, dcd_open_with: *fault tells the first fault */
    DCD_NO_ACTOR = 5,         /* the device has no host of this number, and it is not DCD_MANAGER where that may be */
    DCD_SHORT_MESSAGE = 6,    /* the message has fewer than the 12 bytes of a header */
    DCD_NO_REQUEST = 7,       /* bits 3:0 of its first byte are not 0, a request */
    DCD_WRONG_LENGTH = 8,     /* the length in its header is not that of the payload behind it */
    DCD_NO_ROOM = 9,          /* the caller's array is too short: how many bytes or items there are goes where their count goes */
    DCD_MISALIGNED = 10,      /* the address is no multiple of 8 */
    DCD_OUTSIDE_REGIONS = 11, /* no region of the host has the address within its length */
    DCD_NOT_GRANTED = 12,     /* the host does not hold the granule of the address */
    DCD_BAD_SIZE = 13,        /* the size in the caller's struct is less than that of version 1.0: set it to sizeof */
    DCD_BAD_COUNT = 14,       /* dcd_open_with: there are not as many bases as hosts times regions */
    DCD_NO_NAME = 15          /* no status, code, rule or fault has this number */
};

enum {
    DCD_MANAGER = 0xFE, /* the actor of a message that is no host, and its log. Hosts have the numbers 0 to 15 */
    DCD_NO_HOST = 0xFF  /* in a run that is zeroed */
};

enum { DCD_MOST_RESPONSE = 2060, DCD_MOST_HOSTS = 16, DCD_MOST_REGIONS = 8, DCD_MOST_EXTENTS = 64, DCD_RECORD = 128 };

/* ---- what the calls are given ----

   A handle. All zeros are one without a device: begin with DCD_INIT, and leave its fields alone. It may be moved in memory
   between calls, and not copied: of two copies only one may be used again. It is for one call at a time, those that only ask
   among them, and may go to another thread between calls, ordered by a lock, a thread's start or join, or a sequentially
   consistent atomic. */
struct dcd_device {
    bool is_open;
    uint8_t *at;
};

#ifdef __cplusplus
#define DCD_INIT {}
#else
#define DCD_INIT {0}
#endif

/* Every pointer is the caller's: to an initialized object of its type, or to as many initialized items as the length behind it
   says (to any item where that is 0), none null, no two of one call overlapping, and untouched by others until the call
   returns. The library keeps none of them.

   A struct that begins with `size` may grow: the caller sets size to sizeof, the library fills what both know, the reserved
   fields with 0, and sets size to the bytes that it filled. Items of lists have no size, and stay as they are while DCD_VERSION_MAJOR does.

   A list is given as its items, how many there is room for, and a count. At DCD_OK the count is how many items were put, from
   the first on. At DCD_NO_ROOM none was put, and the count is how many there are: with room 0 a caller asks for that alone.
   Text is given so too: its bytes and a NUL behind them, where the length is told without the NUL, so that it needs room for
   one byte more. */

/* ---- opening and closing ---- */

enum { DCD_SANITIZES = 1, DCD_SHAREABLE = 2 };

/* A region of the device, as 4800h tells it (CXL 3.1, 8.2.9.9.9.1). */
struct dcd_region {
    uint64_t decode_units; /* its decode length, in units of 256 MiB */
    uint64_t length;       /* its length in bytes, at most the decode length */
    uint64_t block;        /* its block size in bytes, one of the supported sizes */
    uint64_t sizes;        /* bit n says that blocks of 2^n bytes are supported, n from 6 to 40: the least is the granule */
    uint32_t handle;       /* its DSMAD handle */
    uint32_t flags;        /* DCD_SANITIZES: what a host gave back is zeroed before it is offered again; DCD_SHAREABLE */
};

/* Why a device was not opened. */
struct dcd_head_fault {
    uint64_t place;  /* how many bytes stand before the fault in the head, or in the head that spells what was given, */
    uint32_t number; /* and the fault as 'script refused: N at P' tells it (docs/formats.md): dcd_fault_name has its name */
    uint32_t cause;  /* of fault 3, a bad configuration: 1 counts, 2 a base, 3 a block size, 4 a length, 5 regions that overlap,
                        6 more than 4,096 granules; else 0 */
    uint8_t host;    /* the host and the region that it is about, where it is about one, else 0 */
    uint8_t region;
    uint8_t reserved[6];
};

/* Opens the device of the head that the bytes begin with: magic, version, hosts, regions and bases of a script. What stands
   behind the head is not read; more than 16,777,216 bytes are refused. Nobody holds a granule, and all words are 0. */
uint32_t dcd_open(struct dcd_device *device, const uint8_t *script, size_t script_length, struct dcd_head_fault *fault);

/* Opens the device of hosts 0 to hosts - 1 with these regions, where the base of region r for host h is the address (DPA) at
   bases[h * region_count + r], a multiple of 256 MiB: the device of the head that spells it, with the same faults. */
uint32_t dcd_open_with(struct dcd_device *device, uint8_t hosts, const struct dcd_region *regions, size_t region_count,
                       const uint64_t *bases, size_t base_count, struct dcd_head_fault *fault);

/* Frees all that the device took. The handle has none then, so closing it once more answers DCD_CLOSED. */
uint32_t dcd_close(struct dcd_device *device);

/* ---- steps ---- */

/* Sends a request (CXL 3.1, 7.6.3: a header of 12 bytes and a payload) as a host, or as DCD_MANAGER, and puts the response of
   the same form into the room, and its length at length. No response has more than DCD_MOST_RESPONSE bytes. At DCD_NO_ROOM
   *length is the number of bytes that the response needs, or 12 if room_length is less. Which memory is whose then, is told by
   dcd_changes, and by no list that a host sends. */
uint32_t dcd_send(struct dcd_device *device, uint8_t actor, const uint8_t *message, size_t message_length, uint8_t *room,
                  size_t room_length, uint64_t *length);

/* Loads and stores the 64-bit word at a device physical address (DPA) of the host: for a caller that traps each access. */
uint32_t dcd_load(struct dcd_device *device, uint8_t host, uint64_t dpa, uint64_t *word);
uint32_t dcd_store(struct dcd_device *device, uint8_t host, uint64_t dpa, uint64_t word);

/* Lets the sanitizer zero at most so many dirty granules, and puts at zeroed how many it zeroed. */
uint32_t dcd_scrub(struct dcd_device *device, uint16_t most, uint64_t *zeroed);

/* ---- what the last step changed ---- */

enum { DCD_GAINED = 1, DCD_LOST = 2, DCD_ZEROED = 3 };

/* Adjacent granules of one region that a host gained or lost, or that are zeroed. */
struct dcd_run {
    uint64_t dpa;           /* where the run begins for the host, 0 where it is zeroed */
    uint64_t length;        /* its bytes */
    uint64_t media;         /* where it begins in the memory behind the device, in which the regions stand one behind another */
    uint32_t first_granule; /* its first granule, numbered through the device, */
    uint32_t granules;      /* and how many it has */
    uint8_t kind;           /* DCD_GAINED, DCD_LOST or DCD_ZEROED */
    uint8_t host;           /* the host, or DCD_NO_HOST where it is zeroed */
    uint8_t region;
    uint8_t reserved[5];
};

/* The logs that got a record, and those that were full and only counted it: bit h is the log of host h, bit 16 the manager's. */
struct dcd_step {
    uint32_t size;
    uint32_t logs;
    uint32_t full;
    uint32_t reserved;
    uint64_t runs;
};

/* Puts at runs, in their order, what the last of dcd_open, dcd_open_with, dcd_send, dcd_load, dcd_store and dcd_scrub on this
   handle changed, and at step how many runs that are and which logs grew. A call that did no step changed nothing. So whoever
   applies the runs behind each call, from the first on, has at each moment exactly what each host holds: map what is gained,
   unmap what is lost, zero what is zeroed, before the next call. A command has at most 64 runs, a scrub at most as many as
   granules were zeroed. At DCD_NO_ROOM step->runs is how many there are. */
uint32_t dcd_changes(const struct dcd_device *device, struct dcd_run *runs, size_t room, struct dcd_step *step);

/* ---- asking: nothing of this changes the device ----

   `const` says so. The library takes the device out of the handle meanwhile and puts it back, so these calls too are for one at
   a time. A handle that is defined const has no device, and then nothing is written. */

struct dcd_host_state {
    uint32_t size;
    uint32_t extents;  /* accepted extents, */
    uint32_t granules; /* the granules that they have, */
    uint32_t records;  /* records in its log */
    uint64_t bytes;    /* the bytes of its accepted extents */
    uint64_t offers;   /* offers that the host has not answered */
    uint16_t missed;   /* records that found its log full, up to 65,535 */
    uint16_t reserved[3];
};

struct dcd_memory_state {
    uint32_t size;
    uint32_t granules; /* all granules of the device, */
    uint32_t free;     /* those that an offer may take, */
    uint32_t dirty;    /* and those that wait for the sanitizer */
    uint64_t bytes;    /* the bytes of all regions */
    uint32_t records;  /* records in the Fabric Manager's log */
    uint16_t missed;   /* records that found it full */
    uint8_t hosts;     /* 1 to 16 */
    uint8_t regions;   /* 1 to 8 */
};

/* An extent of a host, at its own addresses (CXL 3.1, 8.2.9.2.1.6). */
struct dcd_extent {
    uint64_t dpa;
    uint64_t length;
    uint8_t tag[16];   /* all zeros are no tag */
    uint16_t sequence; /* 0, or from 1 on the place among the extents of a shared tag */
    uint16_t offer;    /* dcd_offers: the number of its offer, the oldest being 0; dcd_extents: 0 */
    uint32_t reserved;
};

uint32_t dcd_host(const struct dcd_device *device, uint8_t host, struct dcd_host_state *state);
uint32_t dcd_memory(const struct dcd_device *device, struct dcd_memory_state *state);

/* The accepted extents of a host in the order of 4801h, at most DCD_MOST_EXTENTS, and the extents of its waiting offers. */
uint32_t dcd_extents(const struct dcd_device *device, uint8_t host, struct dcd_extent *extents, size_t room, uint64_t *count);
uint32_t dcd_offers(const struct dcd_device *device, uint8_t host, struct dcd_extent *extents, size_t room, uint64_t *count);

/* A live tag, in a shareable region: a host holds it, is offered it, or the manager has a reference to it. */
struct dcd_tag {
    uint8_t tag[16];
    uint16_t holders;   /* bit h stands where host h holds it, */
    uint16_t offered;   /* and where host h is offered it */
    uint8_t referenced; /* 1 where the manager has a reference to it, else 0 */
    uint8_t reserved[3];
};

/* The live tags, as 5608h shows them: in the order in which they were opened. */
uint32_t dcd_tags(const struct dcd_device *device, struct dcd_tag *tags, size_t room, uint64_t *count);

/* The records of the log of a host or of DCD_MANAGER, the oldest first, each of DCD_RECORD bytes as in a response to 0100h
   (CXL 3.1, 8.2.9.2.1.6). Room and count are in bytes. They stay in the log until 0101h clears them. */
uint32_t dcd_records(const struct dcd_device *device, uint8_t log, uint8_t *records, size_t room, uint64_t *count);

/* The regions with the block sizes of now, and the base of each region for each host, in the order of dcd_open_with. */
uint32_t dcd_regions(const struct dcd_device *device, struct dcd_region *regions, size_t room, uint64_t *count);
uint32_t dcd_bases(const struct dcd_device *device, uint64_t *bases, size_t room, uint64_t *count);

/* ---- words ---- */

/* The rule that a request would break first, were it sent now, with its values in the order in which the rule names them. Where
   none is broken, rule is 0, and it would be answered with Success. Ask before it is sent: a refused 4802h or 4803h ends the
   list that was held with More, and then another rule may be the first. */
struct dcd_refusal {
    uint32_t size;
    uint16_t rule;   /* from 1 to 36: dcd_rule_name has its name */
    uint16_t code;   /* the return code of the response (CXL 3.1, 8.2.8.4.5.1): dcd_code_name has its name */
    uint64_t values[3];
    uint32_t value_count; /* how many of the three are the rule's; the others are 0 */
    uint32_t reserved;
};

uint32_t dcd_refusal(const struct dcd_device *device, uint8_t actor, const uint8_t *message, size_t message_length,
                     struct dcd_refusal *refusal);

/* That rule as a sentence, in one line: 'no host 7; there are 0 and 1'. Where none is broken, it has no bytes. */
uint32_t dcd_refusal_text(const struct dcd_device *device, uint8_t actor, const uint8_t *message, size_t message_length,
                          char *text, size_t room, uint64_t *length);

/* The names of statuses ('DCD_NO_ROOM'), of return codes ('Invalid Extent List'), of rules ('NotOffered') and of the faults of
   heads ('BadConfig'), by their numbers; and why a head was refused, in one line. */
uint32_t dcd_status_name(uint32_t status, char *text, size_t room, uint64_t *length);
uint32_t dcd_code_name(uint16_t code, char *text, size_t room, uint64_t *length);
uint32_t dcd_rule_name(uint16_t rule, char *text, size_t room, uint64_t *length);
uint32_t dcd_fault_name(uint32_t fault, char *text, size_t room, uint64_t *length);
uint32_t dcd_fault_text(const struct dcd_head_fault *fault, char *text, size_t room, uint64_t *length);

#ifdef __cplusplus
}
#endif

#endif
