/* How much stack a call of libmigrate touches, for tests/library: `library_stack DISKS NOW NEXT NAME`. Each function runs on a stack that was painted before, and
 * then in a thread whose stack is the least that migrate.h promises to be enough. */
#define _GNU_SOURCE
#include <migrate.h>
#include <pthread.h>
#include <stdio.h>
#include <stdlib.h>
#include <string.h>
#include <sys/mman.h>

enum { WHOLE = 1 << 20, MOST = 1 << 16, PAINT = 0xA5 };

static uint8_t in[3][MOST], plan[MOST], cert[MOST], text[MOST];
static size_t len[3], plan_len, cert_len, text_len;
static const char *disk;
static uint32_t status;

#define INPUT in[0], len[0], in[1], len[1], in[2], len[2]

static void *nothing(void *at) { return at; }
static void *of_plan(void *at) { status = migrate_plan(INPUT, plan, MOST, &plan_len, cert, MOST, &cert_len); return at; }
static void *of_check(void *at) { status = migrate_check(INPUT, plan, plan_len, cert, cert_len, text, MOST, &text_len); return at; }
static void *of_after(void *at) { status = migrate_after(INPUT, plan, plan_len, text, MOST, &text_len); return at; }
static void *of_after_tight(void *at) { status = migrate_after_tight(INPUT, plan, plan_len, text, MOST, &text_len); return at; }
static void *of_after_rounds(void *at) { status = migrate_after_rounds(INPUT, plan, plan_len, 1, text, MOST, &text_len); return at; }
static void *of_drain(void *at) { status = migrate_drain(in[0], len[0], in[1], len[1], (const uint8_t *)disk, strlen(disk), text, MOST, &text_len, cert, MOST, &cert_len); return at; }
static void *of_plan_tight(void *at) { status = migrate_plan_tight(INPUT, plan, MOST, &plan_len, text, MOST, &text_len); return at; }

enum { DISKS = 64, EACH = 4, ITEMS = DISKS * (DISKS - 1) * EACH };

static struct migrate_disk disks[DISKS];
static struct migrate_limits limits[DISKS];
static struct migrate_item items[ITEMS];
static struct migrate_pair pairs[ITEMS];
static struct migrate_shift shifts[ITEMS];
static uint32_t rounds[ITEMS], set[DISKS];
static size_t count, set_count;
static struct migrate_found found;
static struct migrate_refused refused;
static struct migrate_drained drained;

static void fill(void)
{
    size_t n = 0;
    for (uint32_t from = 0; from < DISKS; from++) {
        disks[from] = (struct migrate_disk){1 + from % 3, 1 + from % 2, 2 * (DISKS - 1) * EACH};
        limits[from] = (struct migrate_limits){disks[from].out_limit, disks[from].in_limit};
        for (uint32_t k = 0; k < (DISKS - 1) * EACH; k++, n++) {
            uint32_t to = (from + 1 + k / EACH) % DISKS;
            items[n] = (struct migrate_item){from, k, to};
            pairs[n] = (struct migrate_pair){from, to};
        }
    }
}

static void *of_numbers(void *at)
{
    status = migrate_plan_numbers(at != NULL, disks, DISKS, items, ITEMS, shifts, ITEMS, &count, set, DISKS, &set_count, &found, &refused);
    return at;
}

static void *of_schedule(void *at)
{
    status = migrate_schedule(at != NULL, limits, DISKS, pairs, ITEMS, rounds, ITEMS, set, DISKS, &set_count, &found, &refused);
    return at;
}

static void *of_tight_numbers(void *at)
{
    status = migrate_plan_tight_numbers(at != NULL, disks, DISKS, items, ITEMS, shifts, ITEMS, &count, &refused);
    return at;
}

static void *of_drain_numbers(void *at)
{
    status = migrate_drain_numbers(at != NULL, disks, DISKS, items, ITEMS, 0, rounds, ITEMS, &drained, &refused);
    return at;
}

static void must(int holds, const char *what)
{
    if (!holds) {
        fprintf(stderr, "not so: %s\n", what);
        exit(1);
    }
}

static size_t touched(void *(*call)(void *), void *given)
{
    uint8_t *stack = mmap(NULL, WHOLE, PROT_READ | PROT_WRITE, MAP_PRIVATE | MAP_ANONYMOUS, -1, 0);
    must(stack != MAP_FAILED, "a stack is given");
    memset(stack, PAINT, WHOLE);
    pthread_attr_t attr;
    pthread_t thread;
    must(pthread_attr_init(&attr) == 0 && pthread_attr_setstack(&attr, stack, WHOLE) == 0 && pthread_create(&thread, &attr, call, given) == 0 && pthread_join(thread, NULL) == 0, "a thread runs");
    size_t at = 0;
    while (at < WHOLE && stack[at] == PAINT)
        at++;
    munmap(stack, WHOLE);
    return WHOLE - at;
}

static void run_in(void *(*call)(void *), void *given, size_t stack)
{
    pthread_attr_t attr;
    pthread_t thread;
    must(pthread_attr_init(&attr) == 0 && pthread_attr_setstacksize(&attr, stack) == 0 && pthread_create(&thread, &attr, call, given) == 0 && pthread_join(thread, NULL) == 0, "a thread with a small stack runs");
}

static void measure(const char *name, void *(*call)(void *), void *given, size_t most, size_t stack)
{
    size_t least = touched(nothing, NULL), size = touched(call, given);
    must(status == MIGRATE_DONE, name);
    run_in(call, given, stack);
    must(status == MIGRATE_DONE, name);
    printf("%s %zu\n", name, size - least);
    must(size - least <= most, name);
}

int main(int words_count, char **words)
{
    must(words_count == 5, "DISKS NOW NEXT NAME");
    for (int i = 0; i < 3; i++) {
        FILE *file = fopen(words[1 + i], "rb");
        must(file != NULL, words[1 + i]);
        len[i] = fread(in[i], 1, MOST, file);
        fclose(file);
    }
    disk = words[4];
    fill();
    measure("plan", of_plan, NULL, 100 << 10, 128 << 10);
    measure("check", of_check, NULL, 100 << 10, 128 << 10);
    measure("after", of_after, NULL, 100 << 10, 128 << 10);
    measure("after_tight", of_after_tight, NULL, 100 << 10, 128 << 10);
    measure("after_rounds", of_after_rounds, NULL, 100 << 10, 128 << 10);
    measure("plan_tight", of_plan_tight, NULL, 100 << 10, 128 << 10);
    measure("drain", of_drain, NULL, 100 << 10, 128 << 10);
    measure("plan_numbers", of_numbers, NULL, 16 << 10, 32 << 10);
    measure("plan_numbers of split limits", of_numbers, set, 16 << 10, 32 << 10);
    measure("schedule", of_schedule, NULL, 16 << 10, 32 << 10);
    measure("schedule of split limits", of_schedule, set, 16 << 10, 32 << 10);
    measure("plan_tight_numbers", of_tight_numbers, NULL, 16 << 10, 32 << 10);
    measure("drain_numbers", of_drain_numbers, NULL, 16 << 10, 32 << 10);
}
