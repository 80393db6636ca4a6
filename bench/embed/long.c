/* How fast the library is and what it keeps. 'long': 10 million commands and 100 million loads and stores of 16 hosts, one after
   another, with the peak memory after a tenth and at the end; 'long N' in place of ten million. 'long SCRIPT' plays a script
   thirty times without printing and tells the least time; 'long N SCRIPT' writes the first lines of that work as a script. */
#include "dcd.h"
#include <inttypes.h>
#include <stdio.h>
#include <stdlib.h>
#include <string.h>
#include <sys/resource.h>
#include <time.h>

enum { HOSTS = 16, GRANULE = 1 << 18, GRANULES = 4096, OWN = 128, FIXED = 64, RUN = 8, ROOM = 2060, MOST = 1 << 24, LINES = 65536 };

static struct dcd_device device;
static uint8_t script[MOST + 32];
static uint64_t state = 5;
static FILE *lines;          /* where the lines of the work go, if anywhere */
static unsigned line_count;

static double seconds(void) {
    struct timespec now;
    clock_gettime(CLOCK_MONOTONIC, &now);
    return (double)now.tv_sec + 1e-9 * (double)now.tv_nsec;
}

static double peak(void) {
    struct rusage used;
    getrusage(RUSAGE_SELF, &used);
    return (double)used.ru_maxrss / 1024;
}

static void must(const char *what, uint32_t status) {
    if (status == DCD_OK) return;
    fprintf(stderr, "long: %s: status %" PRIu32 "\n", what, status);
    exit(1);
}

static void put(uint8_t *at, int bytes, uint64_t value) {
    for (int i = 0; i < bytes; i++, value >>= 8) at[i] = (uint8_t)value;
}

static uint64_t number(const uint8_t *at, int bytes) {
    uint64_t value = 0;
    for (int i = bytes; i-- > 0;) value = value << 8 | at[i];
    return value;
}

static void line(const void *bytes, size_t count) {
    if (!lines || line_count >= LINES) return;
    fwrite(bytes, 1, count, lines);
}

static uint8_t room[ROOM];

static void command(uint8_t actor, uint16_t opcode, const uint8_t *payload, size_t size) {
    static uint8_t message[256];
    uint64_t length = 0;
    uint8_t head[4] = {1, actor};
    memset(message, 0, 12);
    put(message + 3, 2, opcode);
    put(message + 5, 3, size);
    memcpy(message + 12, payload, size);
    must("command", dcd_send(&device, actor, message, 12 + size, room, ROOM, &length));
    if (number(room + 8, 2) != 0) must("answer", (uint32_t)number(room + 8, 2));
    put(head + 2, 2, 12 + size);
    line(head, 4);
    line(message, 12 + size);
    line_count++;
}

static void add(uint8_t host, uint64_t granule, uint64_t count) {
    uint8_t payload[72] = {host, 0, 2};
    put(payload + 28, 4, 1);
    put(payload + 32, 8, granule * GRANULE);
    put(payload + 40, 8, count * GRANULE);
    command(DCD_MANAGER, 0x5604, payload, sizeof payload);
}

static void list(uint8_t host, uint16_t opcode, uint64_t granule, uint64_t count) {
    uint8_t payload[32] = {1};
    put(payload + 8, 8, granule * GRANULE);
    put(payload + 16, 8, count * GRANULE);
    command(host, opcode, payload, sizeof payload);
}

/* Reads the records of the actor's log, 15 at most, and clears them. */
static void clear(uint8_t actor) {
    static const uint8_t log[1] = {4};
    uint8_t payload[6 + 2 * 15] = {4};
    command(actor, 0x0100, log, sizeof log);
    payload[2] = (uint8_t)number(room + 12 + 20, 2);
    for (int i = 0; i < payload[2]; i++) memcpy(payload + 6 + 2 * i, room + 12 + 32 + 128 * i + 20, 2);
    command(actor, 0x0101, payload, 6 + 2 * (size_t)payload[2]);
}

static void scrub(void) {
    uint64_t zeroed = 0;
    uint8_t bytes[3] = {4, HOSTS * RUN, 0};
    must("scrub", dcd_scrub(&device, HOSTS * RUN, &zeroed));
    line(bytes, 3);
    line_count++;
}

/* A load and a store of the host, each at one of 256 words of one of the granules that it always holds. */
static void two_accesses(uint8_t host) {
    uint64_t word = 0;
    uint8_t bytes[18] = {0, host};
    for (int stores = 0; stores < 2; stores++) {
        state = state * 6364136223846793005u + 1442695040888963407u;
        uint64_t dpa = (host * OWN + (state >> 40) % FIXED) * (uint64_t)GRANULE + 8 * ((state >> 50) % 256);
        must("access", stores ? dcd_store(&device, host, dpa, state) : dcd_load(&device, host, dpa, &word));
        bytes[0] = stores ? 3 : 2;
        put(bytes + 2, 8, dpa);
        put(bytes + 10, 8, state);
        line(bytes, stores ? 18 : 10);
        line_count++;
    }
}

static void make_head(uint8_t *at) {
    memset(at, 0, 16 + 40 + 8 * HOSTS);
    memcpy(at, "DCDS\1\0\0\0", 8);
    at[8] = HOSTS;
    at[9] = 1;
    put(at + 16, 8, (uint64_t)GRANULE * GRANULES >> 28);
    put(at + 24, 8, (uint64_t)GRANULE * GRANULES);
    put(at + 32, 8, GRANULE);
    put(at + 40, 8, GRANULE);
    at[52] = 1;
}

static void long_work(uint64_t commands) {
    struct dcd_head_fault fault = {0};
    uint64_t done = 0, told = commands / 10;
    double first_peak = 0, begun = seconds(), in_commands = 0;
    make_head(script);
    must("open", dcd_open(&device, script, 16 + 40 + 8 * HOSTS, &fault));
    line(script, 16 + 40 + 8 * HOSTS);
    for (uint8_t host = 0; host < HOSTS; host++)
        for (uint64_t i = 0; i < FIXED; i += RUN) {
            add(host, host * OWN + i, RUN);
            list(host, 0x4802, host * OWN + i, RUN);
            clear(host);
            clear(DCD_MANAGER);
        }
    for (uint64_t round = 0; done < commands && (!lines || line_count < LINES); round++) {
        for (uint8_t host = 0; host < HOSTS; host++) {
            static const uint8_t whole_list[8] = {50};
            uint64_t granule = host * OWN + FIXED + RUN * (round % RUN);
            double from = seconds();
            add(host, granule, RUN);
            list(host, 0x4802, granule, RUN);
            clear(host);
            command(host, 0x4801, whole_list, sizeof whole_list);
            list(host, 0x4803, granule, RUN);
            clear(DCD_MANAGER);
            done += 8;
            in_commands += seconds() - from;
            for (int i = 0; i < 40; i++) two_accesses(host);
        }
        scrub();
        if (done >= told && first_peak == 0) first_peak = peak();
    }
    double all = seconds() - begun;
    must("close", dcd_close(&device));
    printf("%" PRIu64 " commands in %.2f s, %.0f a second; %" PRIu64 " accesses and %" PRIu64 " scrubs in %.2f s, %.0f a second; peak %.1f MB after a tenth, %.1f at the end\n",
           done, in_commands, (double)done / in_commands, 10 * done, done / (8 * HOSTS), all - in_commands, 10 * (double)done / (all - in_commands), first_peak, peak());
}

static double played(size_t length) {
    struct dcd_head_fault fault = {0};
    uint64_t out = 0;
    double begun = seconds();
    must("open", dcd_open(&device, script, length, &fault));
    const uint8_t *at = script + 16 + 40 * script[9] + 8 * script[8] * script[9];
    while (*at != 0) {
        uint8_t actor = at[1] == DCD_MANAGER ? DCD_MANAGER : at[1] % HOSTS;
        size_t bytes = number(at + 2, 2);
        if (*at == 1) must("command", dcd_send(&device, actor, at + 4, bytes, room, ROOM, &out));
        else if (*at == 2) dcd_load(&device, actor, number(at + 2, 8), &out);
        else if (*at == 3) dcd_store(&device, actor, number(at + 2, 8), number(at + 10, 8));
        else if (*at == 4) must("scrub", dcd_scrub(&device, (uint16_t)number(at + 1, 2), &out));
        at += *at == 1 ? 4 + bytes : *at == 2 ? 10 : *at == 3 ? 18 : *at == 4 ? 3 : 1;
    }
    must("close", dcd_close(&device));
    return seconds() - begun;
}

int main(int count, char **words) {
    if (count == 3) lines = fopen(words[2], "wb");
    if (count == 2 && strspn(words[1], "0123456789") != strlen(words[1])) {
        FILE *file = fopen(words[1], "rb");
        size_t length = file ? fread(script, 1, MOST, file) : 0;
        double least = played(length);
        for (int i = 0; i < 30; i++) {
            double took = played(length);
            if (took < least) least = took;
        }
        printf("%.4f s\n", least);
        return 0;
    }
    long_work(count > 1 ? strtoull(words[1], NULL, 10) : 10000000);
    if (lines) fputc(0, lines);
    return lines && fclose(lines) != 0;
}
