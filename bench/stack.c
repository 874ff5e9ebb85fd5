/* How many bytes of stack each export of the machine's library uses: every call runs on a painted stack of its own, and what is
 * painted over counts, from the caller's frame down. Prints a line an export, the most that any run took; exits 1 where one is above
 * LIMIT, and 2 where no run of an export did what it is asked to do.
 *
 * To add an export: a function that calls it, and a line of `exports`. */
#define _XOPEN_SOURCE 700
#include <stdio.h>
#include <stdlib.h>
#include <string.h>
#include <ucontext.h>

#include "machine.h"

enum { LIMIT = 2048, STACK = 1 << 18, PAINT = 0xa5 };

/* The machine's tables among its words: where they begin, and the words of a row. */
enum { SLOTS_AT = 40, ORDER_AT = 6184, MAPPED_AT = 6696, ENTRIES_AT = 9768, BACKINGS_AT = 11304, POOL_AT = 11816, FILES_AT = 11818, FRAME_COUNT = 11842, FILE_COUNT = 11843 };
enum { PROCESS_WORDS = 5, SLOT_WORDS = 12, ROW_WORDS = 3, BACKING_WORDS = 2 };
enum { SLOTS = 64, MAPPED = 128, FRAMES = 256, PAGE = 4096, PAGES = 4, FILE_BYTES = 3 * PAGE };

#define BASE 0x100000ull
#define ARENA (1ull << 40)

struct machine {
    uint64_t words[MACHINE_WORDS];
    uint8_t frames[FRAMES * MACHINE_FRAME];
    uint8_t files[FILE_BYTES];
};

/* How full a machine is, whether its page entries stand in shuffled rows, and where the arenas start. */
struct fill {
    const char *name;
    unsigned processes, regions, pages, shuffled;
    uint64_t arena;
};

/* A full machine refuses to make anything; the others have room. Where the arena starts with the regions, creation at the lowest start
 * meets them all and starts over once for each. */
static const struct fill fills[] = {
    { "empty", 1, 0, 0, 0, 0 },
    { "one process", 1, 62, 3, 0, 0 },
    { "room", 2, 60, 3, 0, 0 },
    { "63 in the way", 2, 63, 4, 1, BASE },
    { "full", 2, 64, 4, 1, BASE },
};
enum { FILLS = sizeof fills / sizeof *fills };

static struct machine built[FILLS], tried;
static uint64_t out[MACHINE_REGIONS];

/* The page that region `slot` of a process has in place k: lower slots lie higher, so that no list rises. */
static uint64_t page_of(const struct fill *f, unsigned slot, unsigned k) {
    return BASE / PAGE + (uint64_t)(f->regions - 1 - slot) * (PAGES + 1) + k;
}

/* The row of entry k of n: in falling order, or five apart, which hits each row once where n is no multiple of 5. */
static unsigned entry_row(const struct fill *f, unsigned k, unsigned n) { return f->shuffled ? k * 5 % n : n - 1 - k; }

/* Processes with the same regions and pages, as after a fork: each frame has as many holders as there are processes. The entries do not
 * stand in rising order, so that the soundness test sorts them, and the lists of regions are in the order of slots, which fall. */
static void build(struct machine *m, const struct fill *f) {
    memset(m, 0, sizeof *m);
    uint64_t *w = m->words;
    unsigned frames = f->regions * f->pages, entries = frames * f->processes;
    for (unsigned p = 0; p < f->processes; p++) {
        unsigned mapped = frames < MAPPED ? frames : MAPPED;
        uint64_t process[PROCESS_WORDS] = { 1, f->arena, ARENA, f->regions, mapped };
        memcpy(w + p * PROCESS_WORDS, process, sizeof process);
        for (unsigned slot = 0; slot < f->regions; slot++) {
            unsigned row = p * SLOTS + slot;
            uint64_t region[4] = { 1, page_of(f, slot, 0) * PAGE, PAGES * PAGE, 7 };
            memcpy(w + SLOTS_AT + row * SLOT_WORDS, region, sizeof region);
            w[ORDER_AT + row] = slot;
            for (unsigned k = 0; k < f->pages; k++) {
                uint64_t frame = slot * f->pages + k, page = page_of(f, slot, k);
                uint64_t entry[ROW_WORDS] = { row + 1, page, frame };
                memcpy(w + ENTRIES_AT + entry_row(f, p * frames + frame, entries) * ROW_WORDS, entry, sizeof entry);
                uint64_t backing[BACKING_WORDS] = { 1, f->processes };
                memcpy(w + BACKINGS_AT + frame * BACKING_WORDS, backing, sizeof backing);
                /* The lowest pages are mapped, in page order. */
                unsigned place = (f->regions - 1 - slot) * f->pages + k;
                uint64_t mapping[ROW_WORDS] = { page, frame, f->processes == 1 ? 7 : 5 };
                if (place < mapped) memcpy(w + MAPPED_AT + (p * MAPPED + place) * ROW_WORDS, mapping, sizeof mapping);
            }
        }
    }
    uint64_t file[ROW_WORDS] = { 1, 0, FILE_BYTES };
    memcpy(w + FILES_AT, file, sizeof file);
    w[POOL_AT] = FRAMES - frames;
    w[POOL_AT + 1] = frames;
    w[FRAME_COUNT] = FRAMES;
    w[FILE_COUNT] = 1;
}

#define LENT(m) (m)->words, MACHINE_WORDS, (m)->frames, sizeof (m)->frames, (m)->files, sizeof (m)->files

/* Addresses to ask for: the lowest region, the highest, one past all. */
static uint64_t place(unsigned k) { return (k == 0 ? BASE : k == 1 ? BASE + (SLOTS - 3) * (PAGES + 1) * PAGE : ARENA - PAGE) + 1; }

/* ---- one function an export: a call on a machine, in variation k */

static uint64_t nothing(struct machine *m, unsigned k) { return m->words[0] + k == ~0ull; }

static uint64_t sound(struct machine *m, unsigned k) { (void)k; return machine_sound(LENT(m)); }

static uint64_t start(struct machine *m, unsigned k) {
    static const uint64_t rows[ROW_WORDS] = { 1, 0, FILE_BYTES };
    (void)k;
    return machine_start(LENT(m), rows, ROW_WORDS);
}

static uint64_t open(struct machine *m, unsigned k) { (void)k; return machine_open(LENT(m), BASE, ARENA, out, 1); }

static uint64_t close(struct machine *m, unsigned k) { (void)k; return machine_close(LENT(m), 0); }

static uint64_t create_private(struct machine *m, unsigned k) { return machine_create_private(LENT(m), 0, k == 2, ARENA / 2, 3 * PAGE, 7, 0, 0, k == 1, out, 1); }

static uint64_t create_file(struct machine *m, unsigned k) { return machine_create_file(LENT(m), 0, k == 2, ARENA / 2, 3 * PAGE, 7, 0, 0, 0, 0, FILE_BYTES, out, 1); }

static uint64_t create_shared(struct machine *m, unsigned k) { return machine_create_shared(LENT(m), 0, k == 2, ARENA / 2, 3 * PAGE, out, 1); }

static uint64_t region(struct machine *m, unsigned k) { return machine_region(LENT(m), 0, place(k), out, 1); }

static uint64_t regions(struct machine *m, unsigned k) { (void)k; return machine_regions(LENT(m), 0, out, MACHINE_REGIONS); }

static uint64_t covers(struct machine *m, unsigned k) { return machine_covers(LENT(m), 0, place(k), place(k) + PAGE, out, 1); }

static uint64_t load(struct machine *m, unsigned k) { return machine_load(LENT(m), 0, place(k), out, 1); }

static uint64_t store(struct machine *m, unsigned k) { return machine_store(LENT(m), 0, place(k), 7); }

static uint64_t removal(struct machine *m, unsigned k) { return machine_remove(LENT(m), 0, place(k)); }

static uint64_t clear(struct machine *m, unsigned k) { (void)k; return machine_clear(LENT(m), 0); }

static uint64_t protect(struct machine *m, unsigned k) { return machine_protect(LENT(m), 0, place(k), 5); }

static uint64_t pin(struct machine *m, unsigned k) { return machine_pin(LENT(m), 0, place(k)); }

static uint64_t unpin(struct machine *m, unsigned k) { return machine_pin(LENT(m), 0, place(k)) + machine_unpin(LENT(m), 0, place(k)); }

/* The bounds cut a region at its second page. */
static uint64_t carve(struct machine *m, unsigned k) { return machine_carve(LENT(m), 0, BASE + PAGE, BASE + (2 + k) * PAGE, out, MACHINE_REGIONS); }

static uint64_t fault(struct machine *m, unsigned k) { return machine_fault(LENT(m), 0, place(k), k != 2); }

static uint64_t populate(struct machine *m, unsigned k) { return machine_populate(LENT(m), 0, place(k), 8 * PAGE, k == 1); }

static uint64_t eager(struct machine *m, unsigned k) { (void)k; return machine_eager(LENT(m), 0); }

/* The target is opened first; the stack of both counts. */
static uint64_t clone_region(struct machine *m, unsigned k) { return machine_open(LENT(m), BASE, ARENA, out, 1) + machine_clone_region(LENT(m), 0, place(k), out[0]); }

static uint64_t clone(struct machine *m, unsigned k) { (void)k; return machine_open(LENT(m), BASE, ARENA, out, 1) + machine_clone(LENT(m), 0, out[0]); }

/* By number: a fault, a carve, eager populate, a creation at the lowest start. */
static uint64_t by_number(struct machine *m, unsigned k) {
    static const size_t sizes[] = { 4, 4, 2, 9 };
    const uint64_t asked[][9] = {
        { MACHINE_CALL_FAULT, 0, place(0), 1 },
        { MACHINE_CALL_CARVE, 0, BASE + PAGE, BASE + 2 * PAGE },
        { MACHINE_CALL_EAGER, 0 },
        { MACHINE_CALL_CREATE_PRIVATE, 0, 0, 0, 0, 3 * PAGE, 7, 0, 0 },
    };
    return machine_call(LENT(m), asked[k], sizes[k], out, MACHINE_REGIONS);
}

/* The same three, with one test for all; the number of the last. */
static uint64_t many(struct machine *m, unsigned k) {
    const uint64_t asked[] = { 4, MACHINE_CALL_FAULT, 0, place(k), 1, 4, MACHINE_CALL_CARVE, 0, BASE + PAGE, BASE + 2 * PAGE, 2, MACHINE_CALL_EAGER, 0 };
    static uint64_t rows[3 * MACHINE_ROW];
    return machine_run(LENT(m), asked, sizeof asked / sizeof *asked, rows, 3 * MACHINE_ROW) != 3 || rows[2 * MACHINE_ROW] != 0;
}

static const struct export {
    const char *name;
    uint64_t (*run)(struct machine *, unsigned);
} exports[] = {
    { "machine_sound", sound },
    { "machine_start", start },
    { "machine_open", open },
    { "machine_close", close },
    { "machine_create_private", create_private },
    { "machine_create_file", create_file },
    { "machine_create_shared", create_shared },
    { "machine_region", region },
    { "machine_regions", regions },
    { "machine_covers", covers },
    { "machine_load", load },
    { "machine_store", store },
    { "machine_remove", removal },
    { "machine_clear", clear },
    { "machine_protect", protect },
    { "machine_pin", pin },
    { "machine_unpin", unpin },
    { "machine_carve", carve },
    { "machine_fault", fault },
    { "machine_populate", populate },
    { "machine_eager", eager },
    { "machine_clone_region", clone_region },
    { "machine_clone", clone },
    { "machine_call", by_number },
    { "machine_run", many },
};
enum { EXPORTS = sizeof exports / sizeof *exports, VARIATIONS = 4 };

/* ---- covers, at 0, 1 and 64 regions: its core, which tests nothing (bench_c), and the call */

uint64_t tables_covers(const uint64_t *words, size_t words_len, size_t process, uint64_t start, uint64_t end);

static const struct fill covered[] = { { "0 regions", 1, 0, 0, 0, 0 }, { "1 region", 1, 1, 1, 0, 0 }, { "64 regions", 1, 64, 4, 1, 0 } };
enum { COVERED = sizeof covered / sizeof *covered };

/* The lowest region, which comes last in the list. */
static uint64_t covers_core(struct machine *m, unsigned k) { (void)k; return tables_covers(m->words, MACHINE_WORDS, 0, BASE, BASE + PAGES * PAGE); }

static uint64_t covers_call(struct machine *m, unsigned k) { (void)k; return machine_covers(LENT(m), 0, BASE, BASE + PAGES * PAGE, out, 1) == 0 ? out[0] : 2; }

/* ---- the painted stack */

static unsigned char stack[STACK] __attribute__((aligned(64)));
static ucontext_t here, there;
static uint64_t (*running)(struct machine *, unsigned);
static unsigned variation;
static uint64_t answer;

static void entry(void) { answer = running(&tried, variation); }

/* The bytes painted over by one call. */
static size_t painted(uint64_t (*run)(struct machine *, unsigned), unsigned k) {
    memset(stack, PAINT, sizeof stack);
    running = run;
    variation = k;
    if (getcontext(&there) != 0) exit(2);
    there.uc_stack.ss_sp = stack;
    there.uc_stack.ss_size = sizeof stack;
    there.uc_link = &here;
    makecontext(&there, entry, 0);
    if (swapcontext(&here, &there) != 0) exit(2);
    size_t low = 0;
    while (low < sizeof stack && stack[low] == PAINT) low++;
    return sizeof stack - low;
}

/* A line for each number of regions. The core's stack must not hang on it; with no region at all it may need none. */
static int covers_lines(size_t base) {
    size_t one = 0;
    int status = 0;
    for (unsigned i = 0; i < COVERED; i++) {
        static struct machine m;
        build(&m, &covered[i]);
        tried = m;
        size_t core = painted(covers_core, i) - base;
        uint64_t done = answer;
        size_t call = painted(covers_call, i) - base;
        printf("covers, %-16s %6zu its core, %zu the call\n", covered[i].name, core, call);
        if (done != (covered[i].regions > 0) || answer != done) {
            fprintf(stderr, "stack: covers is wrong at %s\n", covered[i].name);
            return 2;
        }
        if (covered[i].regions == 1) one = core;
        if ((covered[i].regions > 1 && core != one) || call > LIMIT) status = 1;
    }
    return status;
}

int main(void) {
    int status = 0;
    for (unsigned i = 0; i < FILLS; i++) {
        build(&built[i], &fills[i]);
        if (machine_sound(LENT(&built[i])) != 0) {
            fprintf(stderr, "stack: the machine '%s' is not sound\n", fills[i].name);
            return 2;
        }
    }
    /* The new region must lie past all 63. */
    tried = built[FILLS - 2];
    if (create_shared(&tried, 0) != 0 || out[0] != BASE + 63ull * (PAGES + 1) * PAGE - PAGE) {
        fprintf(stderr, "stack: creation did not start over\n");
        return 2;
    }
    tried = built[0];
    size_t base = painted(nothing, 0);
    for (unsigned e = 0; e < EXPORTS; e++) {
        size_t most = 0;
        unsigned done = 0;
        for (unsigned i = 0; i < FILLS; i++)
            for (unsigned k = 0; k < VARIATIONS; k++) {
                tried = built[i];
                size_t used = painted(exports[e].run, k) - base;
                if (used > most) most = used;
                done += answer == 0;
            }
        printf("%-24s %6zu%s\n", exports[e].name, most, most > LIMIT ? "  above the limit" : "");
        if (most > LIMIT && status == 0) status = 1;
        if (done == 0) {
            fprintf(stderr, "stack: no run of %s did it\n", exports[e].name);
            status = 2;
        }
    }
    int lines = covers_lines(base);
    return status > lines ? status : lines;
}
