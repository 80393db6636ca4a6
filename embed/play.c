/* Plays a script on the device of the library and prints what dcdsim --mode serial prints. It maps by what dcd_changes says, tells
   on standard error what it maps and unmaps, and stops where a load or a store is granted and not mapped, or mapped and not
   granted. */
#include "dcd.h"
#include <inttypes.h>
#include <stdio.h>
#include <stdlib.h>

enum { MOST = (1 << 24) + 1, COMMAND = 1, LOAD = 2, STORE = 3, SCRUB = 4, MOST_RUNS = 4096, MOST_LOG = 128 * DCD_RECORD };

static uint8_t script[MOST + 32];
static uint16_t mapped[MOST_RUNS]; /* of each granule, the hosts to which it is mapped: bit h is host h */
static struct dcd_device device = DCD_INIT;
static struct dcd_region regions[DCD_MOST_REGIONS];
static uint64_t bases[DCD_MOST_HOSTS * DCD_MOST_REGIONS], region_count;

static uint64_t number(const uint8_t *at, int bytes) {
    uint64_t value = 0;
    for (int i = bytes; i-- > 0;) value = value << 8 | at[i];
    return value;
}

static void stop(const char *what, uint32_t status) {
    char name[40] = "";
    uint64_t length = 0;
    dcd_status_name(status, name, sizeof name, &length);
    fprintf(stderr, "play: %s: %s\n", what, name);
    exit(1);
}

static void print_bytes(const uint8_t *bytes, uint64_t count) {
    for (uint64_t i = 0; i < count; i++) printf("%02x", bytes[i]);
    printf("\n");
}

/* Prints the number of the entry, its line and its actor: a host, or another one. */
static void begin(unsigned entry, unsigned line, const char *other, uint8_t host) {
    if (other) printf("%u %u %s ", entry, line, other);
    else printf("%u %u h%u ", entry, line, host);
}

/* Maps and unmaps what the last step says. */
static void apply(void) {
    static struct dcd_run runs[MOST_RUNS];
    struct dcd_step step = {.size = sizeof step};
    uint32_t status = dcd_changes(&device, runs, MOST_RUNS, &step);
    if (status != DCD_OK) stop("changes", status);
    for (struct dcd_run *run = runs; run < runs + step.runs; run++) {
        if (run->kind == DCD_ZEROED) continue;
        fprintf(stderr, "h%u %c%" PRIx64 "+%" PRIx64 "\n", run->host, run->kind == DCD_GAINED ? '+' : '-', run->dpa, run->length);
        for (uint32_t g = run->first_granule; g < run->first_granule + run->granules; g++)
            if (run->kind == DCD_GAINED) mapped[g] |= (uint16_t)(1u << run->host);
            else mapped[g] &= (uint16_t)~(1u << run->host);
    }
}

/* Whether the address is mapped to the host. */
static bool is_mapped(uint8_t host, uint64_t dpa) {
    uint64_t first = 0;
    for (uint64_t r = 0; r < region_count; r++) {
        uint64_t size = regions[r].sizes & -regions[r].sizes, offset = dpa - bases[host * region_count + r];
        if (offset < regions[r].length) return mapped[first + offset / size] >> host & 1;
        first += regions[r].length / size;
    }
    return false;
}

static size_t command(const uint8_t *at, unsigned entry, unsigned line) {
    static uint8_t room[DCD_MOST_RESPONSE];
    uint64_t length = 0;
    size_t bytes = number(at + 2, 2);
    uint8_t actor = at[1] == DCD_MANAGER ? DCD_MANAGER : at[1] % 16;
    uint32_t status = dcd_send(&device, actor, at + 4, bytes, room, sizeof room, &length);
    if (status != DCD_OK) stop("command", status);
    begin(entry, line, actor == DCD_MANAGER ? "fm" : NULL, actor);
    printf("cmd ");
    print_bytes(room, length);
    return 4 + bytes;
}

static size_t access_word(const uint8_t *at, unsigned entry, unsigned line) {
    uint64_t word = 0, dpa = number(at + 2, 8);
    uint8_t host = at[1] % 16;
    bool loads = at[0] == LOAD;
    uint32_t status = loads ? dcd_load(&device, host, dpa, &word) : dcd_store(&device, host, dpa, number(at + 10, 8));
    if (status != DCD_OK && status < DCD_MISALIGNED) stop("access", status);
    if (status == DCD_OK && !is_mapped(host, dpa)) stop("granted and not mapped", status);
    if (status == DCD_NOT_GRANTED && is_mapped(host, dpa)) stop("mapped and not granted", status);
    begin(entry, line, NULL, host);
    if (status != DCD_OK) printf("%s refused %" PRIu32 "\n", loads ? "ld" : "st", status - DCD_MISALIGNED + 1);
    else if (loads) printf("ld %016" PRIx64 "\n", word);
    else printf("st ok\n");
    return loads ? 10 : 18;
}

static size_t scrub(const uint8_t *at, unsigned entry, unsigned line) {
    uint64_t zeroed = 0;
    uint32_t status = dcd_scrub(&device, (uint16_t)number(at + 1, 2), &zeroed);
    if (status != DCD_OK) stop("scrub", status);
    begin(entry, line, "sz", 0);
    printf("sc %" PRIu64 "\n", zeroed);
    return 3;
}

static void print_log(const char *name, uint8_t host, uint8_t log) {
    static uint8_t records[MOST_LOG];
    uint64_t count = 0;
    uint32_t status = dcd_records(&device, log, records, sizeof records, &count);
    if (status != DCD_OK) stop("records", status);
    for (uint64_t at = 0; at < count; at += DCD_RECORD) {
        if (name) printf("rec %s ", name);
        else printf("rec h%u ", host);
        print_bytes(records + at, DCD_RECORD);
    }
}

int main(void) {
    struct dcd_head_fault fault = {0};
    struct dcd_memory_state all = {.size = sizeof all};
    uint64_t count = 0;
    size_t length = fread(script, 1, MOST, stdin);
    uint32_t status = dcd_open(&device, script, length, &fault);
    if (status == DCD_BAD_HEAD) {
        printf("script refused: %" PRIu32 " at %" PRIu64 "\n", fault.number, fault.place);
        return 3;
    }
    if (status != DCD_OK) stop("open", status);
    dcd_regions(&device, regions, DCD_MOST_REGIONS, &region_count);
    dcd_bases(&device, bases, DCD_MOST_HOSTS * DCD_MOST_REGIONS, &count);
    printf("dcd 1\n");
    const uint8_t *at = script + 16 + 40 * script[9] + 8 * script[8] * script[9];
    unsigned entry = 0;
    for (unsigned line = 1; *at != 0; line++) {
        if (*at == COMMAND) at += command(at, ++entry, line);
        else if (*at == LOAD || *at == STORE) at += access_word(at, ++entry, line);
        else if (*at == SCRUB) at += scrub(at, ++entry, line);
        else {
            at++;
            continue;
        }
        apply();
    }
    dcd_memory(&device, &all);
    for (uint8_t host = 0; host < all.hosts; host++) print_log(NULL, host, host);
    print_log("fm", 0, DCD_MANAGER);
    for (uint8_t host = 0; host < all.hosts; host++) {
        struct dcd_host_state has = {.size = sizeof has};
        dcd_host(&device, host, &has);
        printf("host h%u extents %" PRIu32 " granules %" PRIu32 " log %" PRIu32 "\n", host, has.extents, has.granules, has.records);
    }
    printf("fm log %" PRIu32 " missed %u\ngranules free %" PRIu32 " dirty %" PRIu32 "\nend %u\n", all.records, all.missed, all.free, all.dirty, entry);
    return dcd_close(&device) == DCD_OK ? 0 : 1;
}
