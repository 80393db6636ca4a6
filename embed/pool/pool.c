/* A pool of real memory on the library. The media is a memfd; three guests are processes, each with a window of addresses in
   which nothing is mapped but what the library says that its host holds. They talk to the pool over socket pairs. A manager moves
   blocks between them, shares some by a tag and takes one by force; the third guest is hostile. Behind every call the pool
   compares what the kernel says is mapped in each guest with what the library says that its host holds. Ends with 0. */
#define _GNU_SOURCE
#include "dcd.h"
#include <fcntl.h>
#include <inttypes.h>
#include <signal.h>
#include <stdarg.h>
#include <stdio.h>
#include <stdlib.h>
#include <string.h>
#include <sys/mman.h>
#include <sys/prctl.h>
#include <sys/socket.h>
#include <sys/wait.h>
#include <unistd.h>

enum { GUESTS = 3, HOSTILE = 2, REGIONS = 2, BLOCK = 1 << 20, BLOCKS = 16, MOST_RUNS = 4096 };
enum { MANAGER_LOG = 16, WINDOW = 1 << 29, PRESCRIPTIVE = 2, SHARE = 3, PRESCRIBED = 1, FORCED = 0x10, MORE = 1, DYNAMIC_LOG = 4 };
enum { GET_RECORDS = 0x0100, CLEAR_RECORDS = 0x0101, RESPOND = 0x4802, RELEASE = 0x4803, OFFER = 0x5604, REMOVE = 0x5605 };

/* What the pool and a guest say to each other. */
enum { MAP, UNMAP, DONE, INTERRUPT, STORE, LOAD, LIST, COMMAND, RESPONSE };
struct word { uint32_t what, length; uint64_t at, bytes, media; uint8_t message[DCD_MOST_RESPONSE]; };

struct guest { pid_t pid; int line; bool has_records; }; /* its pid is 0 once it is dead */

static struct dcd_device device = DCD_INIT;
static struct guest guests[GUESTS];
static int media, pool_line; /* the memory behind the device, and a guest's line to the pool */
static uint8_t *window;      /* where a guest's addresses begin: of its region r at r * WINDOW */
static unsigned checks;      /* how often maps were compared with holdings */

static void fail(const char *form, ...) {
    va_list rest;
    va_start(rest, form);
    vfprintf(stderr, form, rest);
    va_end(rest);
    fprintf(stderr, "\n");
    exit(1); /* the guests die with the pool */
}

static void must(const char *what, uint32_t status) {
    char name[40] = "?";
    uint64_t length = 0;
    if (status == DCD_OK) return;
    dcd_status_name(status, name, sizeof name, &length);
    fail("%s: %s", what, name);
}

static void put(uint8_t *at, int bytes, uint64_t value) {
    for (int i = 0; i < bytes; i++, value >>= 8) at[i] = (uint8_t)value;
}

static uint64_t number(const uint8_t *at, int bytes) {
    uint64_t value = 0;
    for (int i = bytes; i-- > 0;) value = value << 8 | at[i];
    return value;
}

/* Where a region begins for a host, and a block of it from the first region on. */
static uint64_t base(unsigned host, unsigned region) { return (uint64_t)host * REGIONS * WINDOW + (uint64_t)region * WINDOW; }
static uint64_t at_block(unsigned region, unsigned block) { return base(0, region) + (uint64_t)block * BLOCK; }

/* ---- both sides ---- */

static void say(int line, struct word *word) {
    if (send(line, word, sizeof *word, MSG_NOSIGNAL) != sizeof *word) fail("a line is broken");
}
/* What comes next; false where the other side has ended. */
static bool hear(int line, struct word *word) { return recv(line, word, sizeof *word, 0) == sizeof *word; }

/* A message with this payload. */
static struct word request(uint16_t opcode, const uint8_t *payload, size_t size) {
    struct word word = {.what = COMMAND, .length = (uint32_t)(12 + size)};
    put(word.message + 3, 2, opcode);
    put(word.message + 5, 3, size);
    memcpy(word.message + 12, payload, size);
    return word;
}

/* ---- a guest ----

   Its process has two parts, as a virtual machine has: `obey` is the monitor, which maps as the pool orders and alone has the
   memfd; the rest is the guest, which does as it likes. */

static void obey(struct word *order) {
    uint8_t *at = window + order->at;
    if (order->what == MAP ? mmap(at, order->bytes, PROT_READ | PROT_WRITE, MAP_SHARED | MAP_FIXED, media, (off_t)order->media) != at
                           : munmap(at, order->bytes) != 0) _exit(2);
    order->what = DONE;
    say(pool_line, order);
}

/* Waits for what is no order to map. */
static struct word heard(void) {
    struct word word;
    while (hear(pool_line, &word)) {
        if (word.what != MAP && word.what != UNMAP) return word;
        obey(&word);
    }
    _exit(0);
}

/* Sends a message, and answers the return code of the response, which comes in its place. */
static uint16_t command(struct word *word) {
    say(pool_line, word);
    *word = heard();
    return (uint16_t)number(word->message + 8, 2);
}

/* Answers an offer (4802h) or gives back (4803h) one extent. */
static uint16_t list(uint16_t opcode, uint8_t flags, uint64_t dpa, uint64_t length) {
    uint8_t payload[32] = {1, 0, 0, 0, flags};
    put(payload + 8, 8, dpa);
    put(payload + 16, 8, length);
    struct word word = request(opcode, payload, sizeof payload);
    return command(&word);
}

/* Reads the records of its log, takes all that is offered, gives back all that is asked for, and clears them. */
static void read_log(void) {
    struct word page;
    do {
        page = request(GET_RECORDS, (const uint8_t[]){DYNAMIC_LOG}, 1);
        if (command(&page) != 0) _exit(3);
        uint8_t clear[6 + 2 * 15] = {DYNAMIC_LOG}, extents[8 + 24 * 15] = {0};
        unsigned records = (unsigned)number(page.message + 12 + 20, 2), listed = 0;
        for (unsigned i = 0; i < records; i++) {
            const uint8_t *record = page.message + 12 + 32 + DCD_RECORD * i;
            memcpy(clear + 6 + 2 * clear[2]++, record + 20, 2);
            if (record[48] > 1) continue; /* 0 is offered, 1 is to be given back, 2 was taken by force */
            memcpy(extents + 8 + 24 * listed++, record + 56, 16);
            if (record[53] & MORE) continue; /* the offer goes on */
            put(extents, 4, listed);
            struct word answer = request(record[48] == 0 ? RESPOND : RELEASE, extents, 8 + 24 * (size_t)listed);
            if (command(&answer) != 0) _exit(4);
            listed = 0;
        }
        struct word cleared = request(CLEAR_RECORDS, clear, 6 + 2 * (size_t)clear[2]);
        if (clear[2] > 0 && command(&cleared) != 0) _exit(5);
    } while (page.message[12] & 2); /* more records */
}

static void be_guest(int line) {
    pool_line = line;
    prctl(PR_SET_PDEATHSIG, SIGKILL);
    for (;;) {
        struct word word = heard();
        volatile uint64_t *at = (volatile uint64_t *)(window + word.at);
        switch (word.what) {
        case INTERRUPT: read_log(); break;
        case STORE: *at = word.media; break; /* dies of SIGSEGV where nothing is mapped */
        case LOAD: word.media = *at; break;
        case LIST: word.media = list((uint16_t)word.length, (uint8_t)word.media, word.at, word.bytes); break;
        }
        word.what = DONE;
        say(pool_line, &word);
    }
}

/* ---- the pool ---- */

/* What is mapped in a guest by the kernel: for each block of a region the number of the block of the media that is there. */
static void read_maps(unsigned host, int maps[REGIONS][BLOCKS]) {
    char path[40], line[400];
    snprintf(path, sizeof path, "/proc/%d/maps", guests[host].pid);
    FILE *file = fopen(path, "r");
    if (!file) fail("%s cannot be read", path);
    while (fgets(line, sizeof line, file)) {
        unsigned long from, to, offset;
        if (!strstr(line, "memfd:media") || sscanf(line, "%lx-%lx %*s %lx", &from, &to, &offset) != 3) continue;
        for (unsigned long at = from - (unsigned long)window; at < to - (unsigned long)window; at += BLOCK, offset += BLOCK) {
            if (at / WINDOW >= REGIONS || at % WINDOW / BLOCK >= BLOCKS || (to - from) % BLOCK) fail("h%u maps what is no block", host);
            maps[at / WINDOW][at % WINDOW / BLOCK] = (int)(offset / BLOCK);
        }
    }
    fclose(file);
}

/* That each guest's maps are what its host holds, and nothing else. */
static void check_maps(void) {
    for (unsigned host = 0; host < GUESTS; host++) {
        int mapped[REGIONS][BLOCKS], held[REGIONS][BLOCKS];
        struct dcd_extent extents[DCD_MOST_EXTENTS];
        uint64_t count = 0;
        if (guests[host].pid == 0) continue;
        memset(mapped, -1, sizeof mapped);
        memset(held, -1, sizeof held);
        read_maps(host, mapped);
        must("extents", dcd_extents(&device, (uint8_t)host, extents, DCD_MOST_EXTENTS, &count));
        for (uint64_t i = 0; i < count; i++)
            for (uint64_t at = extents[i].dpa - base(host, 0); at < extents[i].dpa - base(host, 0) + extents[i].length; at += BLOCK)
                held[at / WINDOW][at % WINDOW / BLOCK] = (int)(at / WINDOW * BLOCKS + at % WINDOW / BLOCK);
        if (memcmp(mapped, held, sizeof held) != 0) fail("what is mapped in h%u is not what it holds", host);
        checks++;
    }
}

static void apply(void);

/* Answers what a guest sends until it says that it is done; false where it died. */
static bool serve(unsigned host, struct word *word) {
    while (hear(guests[host].line, word)) {
        if (word->what == DONE) return true;
        uint64_t length = 0;
        uint8_t room[DCD_MOST_RESPONSE];
        if (word->length > sizeof word->message) fail("h%u says more than a message", host);
        must("message", dcd_send(&device, (uint8_t)host, word->message, word->length, room, sizeof room, &length));
        apply();
        word->what = RESPONSE;
        memcpy(word->message, room, length);
        say(guests[host].line, word);
    }
    return false;
}

/* Gives a guest an order, and waits until it has obeyed. */
static bool order(unsigned host, uint32_t what, uint32_t length, uint64_t at, uint64_t bytes, uint64_t *value) {
    struct word word = {.what = what, .length = length, .at = at, .bytes = bytes, .media = *value};
    say(guests[host].line, &word);
    if (!serve(host, &word)) return false;
    *value = word.media;
    return true;
}

/* Does with the guests' maps and the media what the last step says, and compares. */
static void apply(void) {
    static struct dcd_run runs[MOST_RUNS];
    struct dcd_step step = {.size = sizeof step};
    must("changes", dcd_changes(&device, runs, MOST_RUNS, &step));
    for (struct dcd_run *run = runs; run < runs + step.runs; run++) {
        uint64_t at = run->dpa - base(run->host, 0), from = run->media;
        if (run->kind == DCD_ZEROED) {
            if (fallocate(media, FALLOC_FL_PUNCH_HOLE | FALLOC_FL_KEEP_SIZE, (off_t)from, (off_t)run->length) != 0) fail("the media cannot be zeroed");
        } else if (guests[run->host].pid != 0 && !order(run->host, run->kind == DCD_GAINED ? MAP : UNMAP, 0, at, run->length, &from)) {
            fail("h%u is gone", run->host);
        }
    }
    for (unsigned host = 0; host < GUESTS; host++)
        if (step.logs >> host & 1) guests[host].has_records = true;
    check_maps();
}

/* Interrupts each guest whose log grew, until all have read theirs. */
static void interrupt(void) {
    uint64_t none = 0;
    for (unsigned host = 0; host < GUESTS; host++) {
        if (!guests[host].has_records || guests[host].pid == 0) continue;
        guests[host].has_records = false;
        if (!order(host, INTERRUPT, 0, 0, 0, &none)) fail("h%u died of an interrupt", host);
    }
}

/* Sends a message of the manager, which is to be answered with Success, and lets the guests read their logs. */
static void manage(uint16_t opcode, unsigned host, uint8_t policy, uint8_t region, uint8_t tag, unsigned block, unsigned blocks) {
    uint8_t payload[72] = {(uint8_t)host, 0, policy, region}, room[DCD_MOST_RESPONSE];
    struct dcd_refusal refusal = {.size = sizeof refusal};
    char text[160];
    uint64_t length = 0;
    payload[12] = tag;
    put(payload + 28, 4, blocks ? 1 : 0);
    put(payload + 32, 8, base(host, region) + (uint64_t)block * BLOCK);
    put(payload + 40, 8, (uint64_t)blocks * BLOCK);
    struct word word = request(opcode, payload, blocks ? 72 : 32);
    must("refusal", dcd_refusal(&device, DCD_MANAGER, word.message, word.length, &refusal));
    must("sentence", dcd_refusal_text(&device, DCD_MANAGER, word.message, word.length, text, sizeof text, &length));
    must("message", dcd_send(&device, DCD_MANAGER, word.message, word.length, room, sizeof room, &length));
    apply();
    if (number(room + 8, 2) != refusal.code) fail("a rule is told with another code");
    if (refusal.rule != 0 || text[0] != 0) fail("%04xh is refused: %s", opcode, text);
    interrupt();
}

static void scrub(void) {
    struct dcd_memory_state all = {.size = sizeof all};
    uint64_t zeroed = 0;
    must("scrub", dcd_scrub(&device, UINT16_MAX, &zeroed));
    apply();
    must("memory", dcd_memory(&device, &all));
    if (all.dirty != 0) fail("%" PRIu32 " granules stay dirty", all.dirty);
}

static void store(unsigned host, unsigned region, unsigned block, uint64_t value) {
    if (!order(host, STORE, 0, at_block(region, block), 0, &value)) fail("h%u died of a store", host);
}

static void expect(unsigned host, unsigned region, unsigned block, uint64_t wanted) {
    uint64_t value = 0;
    if (!order(host, LOAD, 0, at_block(region, block), 0, &value)) fail("h%u died of a load", host);
    if (value != wanted) fail("h%u finds %" PRIx64 " in block %u of region %u, and not %" PRIx64, host, value, block, region, wanted);
}

/* Lets a guest list one block, which is to be answered with this code. */
static void listed(unsigned host, uint16_t opcode, uint8_t flags, unsigned block, uint16_t wanted) {
    uint64_t code = flags;
    if (!order(host, LIST, opcode, base(host, 0) + at_block(0, block), BLOCK, &code)) fail("h%u died of a command", host);
    if (code != wanted) fail("h%u gets the code %" PRIu64 ", and not %u", host, code, wanted);
}

static void open_pool(void) {
    static const struct dcd_region regions[REGIONS] = {
        {.decode_units = 1, .length = BLOCKS * (uint64_t)BLOCK, .block = BLOCK, .sizes = BLOCK, .handle = 0, .flags = DCD_SANITIZES},
        {.decode_units = 1, .length = BLOCKS * (uint64_t)BLOCK, .block = BLOCK, .sizes = BLOCK, .handle = 1, .flags = DCD_SANITIZES | DCD_SHAREABLE}};
    uint64_t bases[GUESTS * REGIONS];
    struct dcd_head_fault fault = {0};
    for (unsigned i = 0; i < GUESTS * REGIONS; i++) bases[i] = base(i / REGIONS, i % REGIONS);
    must("open", dcd_open_with(&device, GUESTS, regions, REGIONS, bases, GUESTS * REGIONS, &fault));
    media = memfd_create("media", MFD_CLOEXEC);
    if (media < 0 || ftruncate(media, REGIONS * BLOCKS * (off_t)BLOCK) != 0) fail("there is no memfd");
    window = mmap(NULL, REGIONS * (size_t)WINDOW, PROT_NONE, MAP_PRIVATE | MAP_ANONYMOUS | MAP_NORESERVE, -1, 0);
    if (window == MAP_FAILED) fail("there are no addresses");
}

static void start(unsigned host) {
    int ends[2];
    if (socketpair(AF_UNIX, SOCK_SEQPACKET | SOCK_CLOEXEC, 0, ends) != 0) fail("there is no socket pair");
    guests[host] = (struct guest){.pid = fork(), .line = ends[0]};
    if (guests[host].pid < 0) fail("there is no process");
    for (unsigned i = 0; guests[host].pid == 0 && i <= host; i++) close(guests[i].line);
    if (guests[host].pid == 0) be_guest(ends[1]);
    close(ends[1]);
}

/* The hostile guest touches this block of region 0, and is to die of it. */
static void dies_of(unsigned host, unsigned block) {
    uint64_t value = 0;
    int end = 0;
    if (order(host, LOAD, 0, at_block(0, block), 0, &value)) fail("h%u reads what it does not hold", host);
    if (waitpid(guests[host].pid, &end, 0) != guests[host].pid || !WIFSIGNALED(end) || WTERMSIG(end) != SIGSEGV) fail("h%u ends otherwise", host);
    guests[host].pid = 0;
    close(guests[host].line);
}

/* Takes all by force that a host holds. */
static void take_all(unsigned host) {
    struct dcd_extent extents[DCD_MOST_EXTENTS];
    uint64_t count = 0;
    must("extents", dcd_extents(&device, (uint8_t)host, extents, DCD_MOST_EXTENTS, &count));
    for (uint64_t i = 0; i < count; i++) {
        uint64_t at = extents[i].dpa - base(host, 0);
        manage(REMOVE, host, PRESCRIBED | FORCED, (uint8_t)(at / WINDOW), 0, (unsigned)(at % WINDOW / BLOCK), (unsigned)(extents[i].length / BLOCK));
    }
}

int main(void) {
    struct dcd_memory_state all = {.size = sizeof all};
    struct dcd_tag tag = {.holders = 0};
    uint64_t tags = 0;
    open_pool();
    for (unsigned host = 0; host < GUESTS; host++) start(host);

    manage(OFFER, 0, PRESCRIPTIVE, 0, 0, 0, 4); /* four blocks for h0, which accepts them */
    for (unsigned block = 0; block < 4; block++) store(0, 0, block, 0x1111 * (block + 1));
    for (unsigned block = 0; block < 4; block++) expect(0, 0, block, 0x1111 * (block + 1));

    manage(REMOVE, 0, PRESCRIBED, 0, 0, 1, 2); /* two of them are asked back, zeroed, and moved to h1 */
    scrub();
    manage(OFFER, 1, PRESCRIPTIVE, 0, 0, 1, 2);
    expect(1, 0, 1, 0);
    expect(1, 0, 2, 0);
    store(1, 0, 1, 0x2222);
    expect(0, 0, 0, 0x1111);
    expect(0, 0, 3, 0x4444);

    manage(OFFER, 0, PRESCRIPTIVE, 1, 0x77, 0, 2); /* two blocks of the shareable region, under a tag */
    manage(OFFER, 1, SHARE, 1, 0x77, 0, 0);
    store(0, 1, 0, 0x3333);
    expect(1, 1, 0, 0x3333);
    store(1, 1, 1, 0x5555);
    expect(0, 1, 1, 0x5555);
    must("tags", dcd_tags(&device, &tag, 1, &tags));
    if (tags != 1 || tag.tag[0] != 0x77 || tag.holders != 3) fail("the tag is told with other hosts");

    listed(HOSTILE, RESPOND, MORE, 1, 0);  /* the hostile guest lists memory of h1 with More: Success, and nothing is granted */
    listed(HOSTILE, RESPOND, 0, 2, 0x0F);  /* and ends its list: Invalid Physical Address */
    manage(OFFER, HOSTILE, PRESCRIPTIVE, 0, 0, 8, 1);
    listed(HOSTILE, RESPOND, 0, 8, 0x0F);  /* it answers twice */
    store(HOSTILE, 0, 8, 0x6666);
    manage(REMOVE, HOSTILE, PRESCRIBED | FORCED, 0, 0, 8, 1);
    dies_of(HOSTILE, 8);                   /* touches what was taken */
    scrub();

    manage(OFFER, 1, PRESCRIPTIVE, 0, 0, 8, 1);
    expect(1, 0, 8, 0);

    for (unsigned host = 0; host < HOSTILE; host++) take_all(host); /* all comes back, and the guests end */
    scrub();
    must("memory", dcd_memory(&device, &all));
    if (all.free != all.granules) fail("%" PRIu32 " granules are lost", all.granules - all.free);
    must("close", dcd_close(&device));
    for (unsigned host = 0; host < HOSTILE; host++) {
        close(guests[host].line);
        waitpid(guests[host].pid, NULL, 0);
    }
    printf("pool: %u times what is mapped is what is held; a moved block is zeros; a shared one is shared; h%u died of what was taken\n", checks, HOSTILE);
    return 0;
}
