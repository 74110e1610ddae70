/* Calls of libmigrate, for tests/library:
 *     library short NAME DISKS NOW NEXT    each function with as much room as it needs, and with a byte less for each text in turn
 *     library random CALLS SEED            with tables, plans, certificates and names that were changed at random, and with random room
 *     library threads CALLS TABLES TABLES  in two threads at the same time, each over three tables of its own and with a stack of 256 KiB
 *     library none                         with NULL for bytes and room of which there are none, and with a GiB that may not be touched
 *     library time RUNS DISKS NOW NEXT     the least seconds of a plan
 * Whatever is handed over ends at a page that may not be touched, and what is handed back begins behind bytes that must stay. */
#define _GNU_SOURCE
#include <migrate.h>
#include <pthread.h>
#include <stdio.h>
#include <stdlib.h>
#include <string.h>
#include <sys/mman.h>
#include <time.h>
#include <unistd.h>

enum { IN = 6, MARGIN = 32, MARK = 0xA5 };

#define MUST(holds) ((holds) ? (void)0 : fail(#holds, __LINE__))

static void fail(const char *what, int line)
{
    fprintf(stderr, "line %d: not so: %s\n", line, what);
    exit(1);
}

/* Memory whose end is the end of a page, with another one behind it that may not be touched. */
struct edge {
    uint8_t *end;
    size_t most;
};

static struct edge edge_of(size_t most)
{
    size_t page = (size_t)sysconf(_SC_PAGESIZE), size = (most + MARGIN + page - 1) / page * page;
    uint8_t *at = mmap(NULL, size + page, PROT_READ | PROT_WRITE, MAP_PRIVATE | MAP_ANONYMOUS, -1, 0);
    MUST(at != MAP_FAILED && mprotect(at + size, page, PROT_NONE) == 0);
    return (struct edge){at + size, most};
}

static uint8_t *put(struct edge edge, const uint8_t *bytes, size_t len)
{
    MUST(len <= edge.most);
    return memcpy(edge.end - len, bytes, len);
}

/* Room for so many bytes, and the bytes before it. */
static uint8_t *room_at(struct edge edge, size_t room)
{
    MUST(room <= edge.most);
    memset(edge.end - room - MARGIN, MARK, room + MARGIN);
    return edge.end - room;
}

/* Each byte is a mark: the first one is, and each other one is like the one before it. */
static int is_marked(const uint8_t *at, size_t len)
{
    return len == 0 || (*at == MARK && memcmp(at, at + 1, len - 1) == 0);
}

/* What was handed back stands in its room alone: before it, and behind its bytes, all is as it was. */
static void is_within(const uint8_t *at, size_t room, size_t len)
{
    MUST(is_marked(at - MARGIN, MARGIN));
    MUST(len >= room || is_marked(at + len, room - len));
}

/* One call: what is handed in (the three tables, a plan, a certificate, the name of a disk), the room that is given, and what came; next
 * disks stand where a plan would. */
enum function { PLAN, CHECK, AFTER, PLAN_TIGHT, AFTER_TIGHT, AFTER_ROUNDS, DRAIN, FUNCTIONS };

struct world {
    struct edge in[IN], plan, text;
};

struct call {
    enum function function;
    const uint8_t *in[IN];
    size_t in_len[IN], plan_room, text_room;
    uint32_t rounds, status;
    size_t plan_len, text_len;
    const uint8_t *plan, *text;
};

static struct world world_of(size_t most)
{
    struct world world = {.plan = edge_of(most), .text = edge_of(most)};
    for (int i = 0; i < IN; i++)
        world.in[i] = edge_of(most);
    return world;
}

static void make(struct world *world, struct call *it)
{
    const uint8_t *in[IN];
    for (int i = 0; i < IN; i++)
        in[i] = put(world->in[i], it->in[i], it->in_len[i]);
    uint8_t *plan = room_at(world->plan, it->plan_room), *text = room_at(world->text, it->text_room);
    size_t *len = it->in_len;
    it->plan_len = 0;
    switch (it->function) {
    case PLAN:
        it->status = migrate_plan(in[0], len[0], in[1], len[1], in[2], len[2], plan, it->plan_room, &it->plan_len, text, it->text_room, &it->text_len);
        break;
    case PLAN_TIGHT:
        it->status = migrate_plan_tight(in[0], len[0], in[1], len[1], in[2], len[2], plan, it->plan_room, &it->plan_len, text, it->text_room, &it->text_len);
        break;
    case CHECK:
        it->status = migrate_check(in[0], len[0], in[1], len[1], in[2], len[2], in[3], len[3], in[4], len[4], text, it->text_room, &it->text_len);
        break;
    case AFTER:
        it->status = migrate_after(in[0], len[0], in[1], len[1], in[2], len[2], in[3], len[3], text, it->text_room, &it->text_len);
        break;
    case AFTER_ROUNDS:
        it->status = migrate_after_rounds(in[0], len[0], in[1], len[1], in[2], len[2], in[3], len[3], it->rounds, text, it->text_room, &it->text_len);
        break;
    case DRAIN:
        it->status = migrate_drain(in[0], len[0], in[1], len[1], in[5], len[5], plan, it->plan_room, &it->plan_len, text, it->text_room, &it->text_len);
        break;
    default:
        it->status = migrate_after_tight(in[0], len[0], in[1], len[1], in[2], len[2], in[3], len[3], text, it->text_room, &it->text_len);
    }
    it->plan = plan, it->text = text;
    for (int i = 0; i < IN; i++)
        MUST(memcmp(in[i], it->in[i], it->in_len[i]) == 0);
    is_within(plan, it->plan_room, it->plan_len);
    is_within(text, it->text_room, it->text_len);
    int all_fits = it->plan_len <= it->plan_room && it->text_len <= it->text_room;
    MUST(it->status != MIGRATE_DONE || all_fits);
    MUST(it->status != MIGRATE_TOO_SHORT || !all_fits);
    MUST(it->status == MIGRATE_DONE || it->status == MIGRATE_TOO_SHORT || it->plan_len == 0);
    static const uint64_t OTHERS[FUNCTIONS] = {[CHECK] = 1 << 1 | 1 << 10, [AFTER] = 1 << 1 | 1 << 10, [PLAN_TIGHT] = 1 << 13,
                                               [AFTER_TIGHT] = 1 << 1 | 1 << 10, [AFTER_ROUNDS] = 1 << 1 | 1 << 10, [DRAIN] = 1 << 2 | 1 << 14};
    uint64_t may_be = 1 << 3 | 1 << 7 | OTHERS[it->function];
    MUST(it->status == MIGRATE_DONE || it->status == MIGRATE_TOO_SHORT || (it->status < 64 && (may_be >> it->status & 1)));
}

static struct call call_of(enum function function, const struct call *from, size_t room)
{
    struct call it = *from;
    it.function = function, it.plan_room = room, it.text_room = room;
    return it;
}

static uint8_t *copy_of(const uint8_t *at, size_t len)
{
    uint8_t *copy = malloc(len + 1);
    MUST(copy != NULL);
    return memcpy(copy, at, len);
}

/* The same to the end of the run: whatever else is not given back, the sanitizer tells. */
static uint8_t *kept_copy(const uint8_t *at, size_t len)
{
    static uint8_t *kept[64];
    static int count;
    MUST(count < 64);
    return kept[count++] = copy_of(at, len);
}

/* Adds a plan of the three tables and its certificate to them. */
static void planned(struct world *world, struct call *it, size_t room)
{
    struct call plan = call_of(PLAN, it, room);
    make(world, &plan);
    MUST(plan.status == MIGRATE_DONE);
    it->in[3] = kept_copy(plan.plan, plan.plan_len), it->in_len[3] = plan.plan_len;
    it->in[4] = kept_copy(plan.text, plan.text_len), it->in_len[4] = plan.text_len;
}

static struct call loaded(char **names)
{
    struct call it = {.in = {[3] = (const uint8_t *)"", [4] = (const uint8_t *)"", [5] = (const uint8_t *)""}};
    for (int i = 0; i < 3; i++) {
        FILE *file = fopen(names[i], "rb");
        MUST(file != NULL && fseek(file, 0, SEEK_END) == 0);
        size_t len = (size_t)ftell(file);
        uint8_t *at = malloc(len + 1);
        rewind(file);
        MUST(at != NULL && fread(at, 1, len, file) == len);
        fclose(file);
        it.in[i] = kept_copy(at, len), it.in_len[i] = len;
        free(at);
    }
    return it;
}

static void short_rooms(const char *name, char **names)
{
    enum { MOST = 1 << 16 };
    struct world world = world_of(MOST);
    struct call given = loaded(names);
    planned(&world, &given, MOST);
    given.in[5] = (const uint8_t *)name, given.in_len[5] = strlen(name);
    for (enum function f = PLAN; f < FUNCTIONS; f++) {
        struct call whole = call_of(f, &given, MOST);
        make(&world, &whole);
        MUST(whole.status == MIGRATE_DONE && whole.text_len > 0);
        uint8_t *plan = copy_of(whole.plan, whole.plan_len), *text = copy_of(whole.text, whole.text_len);
        for (int less = 0; less < 4; less++) {
            struct call it = call_of(f, &given, 0);
            it.plan_room = whole.plan_len - (whole.plan_len > 0 && (less & 1)), it.text_room = whole.text_len - (less >> 1);
            make(&world, &it);
            MUST(it.status == (it.plan_room < whole.plan_len || it.text_room < whole.text_len ? MIGRATE_TOO_SHORT : MIGRATE_DONE));
            MUST(it.plan_len == whole.plan_len && it.text_len == whole.text_len);
            MUST(memcmp(it.plan, plan, it.plan_room) == 0 && memcmp(it.text, text, it.text_room) == 0);
        }
        struct call none = call_of(f, &given, 0);
        make(&world, &none);
        MUST(none.status == MIGRATE_TOO_SHORT && none.plan_len == whole.plan_len && none.text_len == whole.text_len);
        free(plan), free(text);
    }
}

static uint64_t state;

static size_t below(size_t most)
{
    state = state * 6364136223846793005u + 1442695040888963407u;
    return (size_t)(state >> 33) % most;
}

static const char *const WORDS[] = {"disk,limit,slots\n", "disk,out,in,slots\n", "item,disk,slot\n", "item,disk\n", "a", "b", "c", ",", "\n", "\r\n", "\"", "0", "1", "2", "65536",
                                    "migration-plan 1\n", "rounds ", "round ", "end\n", "migration-certificate 1\n", "quotient 1\n", "class even\n", "bound ", " ", "x", "y", "\xef\xbb\xbf"};

/* The bytes with some of them changed, left out, or put in. */
static size_t change(uint8_t *at, size_t len, size_t most)
{
    for (size_t n = below(4); n > 0; n--) {
        size_t place = below(len + 1);
        const char *word = WORDS[below(sizeof WORDS / sizeof *WORDS)];
        size_t size = strlen(word);
        switch (below(5)) {
        case 0:
            if (place < len)
                at[place] = (uint8_t)below(256);
            break;
        case 1:
            len = place;
            break;
        case 2:
            if (place < len)
                memmove(at + place, at + place + 1, --len - place);
            break;
        case 3:
            if (place < len)
                at[place] = (uint8_t)("0123456789abcxyz, \n"[below(19)]);
            break;
        default:
            if (len + size <= most) {
                memmove(at + place + size, at + place, len - place);
                memcpy(at + place, word, size), len += size;
            }
        }
    }
    return len;
}

static void random_calls(long calls, uint64_t seed)
{
    enum { MOST = 4096 };
    static const char *const TABLES[][3] = {
        {"disk,limit,slots\na,2,4\nb,1,4\n", "item,disk,slot\nx,a,0\ny,a,1\nz,b,0\n", "item,disk\nx,b\ny,b\nz,a\n"},
        {"disk,out,in,slots\na,1,2,3\nb,2,1,3\nc,1,1,2\n", "item,disk,slot\nx,a,0\ny,b,1\nz,c,0\n", "item,disk\nx,b\ny,c\nz,a\n"},
        {"disk,limit,slots\na,1,1\nb,1,1\nc,1,1\n", "item,disk,slot\nx,a,0\ny,b,0\n", "item,disk\nx,b\ny,a\n"},
        {"disk,limit,slots\na,1,1\nb,1,1\n", "item,disk,slot\nx,a,0\ny,b,0\n", "item,disk\nx,b\ny,a\n"}, /* no slot is free, so it has no plan */
    };
    struct world world = world_of(MOST);
    struct call base[4] = {0};
    for (int t = 0; t < 4; t++) {
        for (int i = 0; i < 3; i++)
            base[t].in[i] = (const uint8_t *)TABLES[t][i], base[t].in_len[i] = strlen(TABLES[t][i]);
        base[t].in[3] = base[t].in[4] = (const uint8_t *)"";
        base[t].in[5] = (const uint8_t *)(t == 1 ? "c" : "a"), base[t].in_len[5] = 1;
        struct call plan = call_of(t >= 2 ? PLAN_TIGHT : PLAN, &base[t], MOST);
        make(&world, &plan);
        MUST(plan.status == (t == 3 ? MIGRATE_NO_PLAN : MIGRATE_DONE));
        base[t].in[3] = kept_copy(plan.plan, plan.plan_len), base[t].in_len[3] = plan.plan_len;
        base[t].in[4] = kept_copy(plan.text, plan.text_len), base[t].in_len[4] = plan.text_len;
    }
    state = seed;
    long counts[128] = {0};
    static uint8_t room[IN][MOST];
    for (long n = 0; n < calls; n++) {
        struct call it = call_of((enum function)below(FUNCTIONS), &base[below(4)], 0);
        for (int i = 0; i < IN; i++) {
            memcpy(room[i], it.in[i], it.in_len[i]);
            if (below(IN) == 0)
                it.in_len[i] = change(room[i], it.in_len[i], MOST);
            it.in[i] = room[i];
        }
        it.rounds = (uint32_t)below(4), it.plan_room = below(2) ? MOST : below(300), it.text_room = below(2) ? MOST : below(200);
        make(&world, &it);
        counts[it.status]++;
    }
    for (int s = 0; s < 128; s++)
        if (counts[s] > 0)
            printf("%d: %ld\n", s, counts[s]);
}

/* Two threads */

struct task {
    struct call given;
    long calls;
    size_t most;
};

static void *carry_out(void *at)
{
    struct task *task = at;
    struct world world = world_of(task->most);
    for (long n = 0; n < task->calls; n++) {
        for (enum function f = PLAN; f <= AFTER; f++) {
            struct call it = call_of(f, &task->given, task->most);
            make(&world, &it);
            MUST(it.status == MIGRATE_DONE);
            if (f == PLAN)
                MUST(it.plan_len == task->given.in_len[3] && memcmp(it.plan, task->given.in[3], it.plan_len) == 0);
        }
    }
    return NULL;
}

static void two_threads(long calls, char **names)
{
    struct task tasks[2];
    pthread_t threads[2];
    pthread_attr_t attr;
    MUST(pthread_attr_init(&attr) == 0 && pthread_attr_setstacksize(&attr, 256 << 10) == 0);
    for (int t = 0; t < 2; t++) {
        tasks[t] = (struct task){.given = loaded(names + 3 * t), .calls = calls, .most = 1 << 16};
        struct world world = world_of(tasks[t].most);
        planned(&world, &tasks[t].given, tasks[t].most);
    }
    for (int t = 0; t < 2; t++)
        MUST(pthread_create(&threads[t], &attr, carry_out, &tasks[t]) == 0);
    for (int t = 0; t < 2; t++)
        MUST(pthread_join(threads[t], NULL) == 0);
}

/* NULL with no bytes, and with no room, is as any other pointer with none. */
static void no_bytes(void)
{
    size_t plan = 9, text = 9, other_plan = 9, other_text = 9;
    uint8_t byte = 0, *at = &byte;
    MUST(migrate_plan(NULL, 0, NULL, 0, NULL, 0, NULL, 0, &plan, NULL, 0, &text) == MIGRATE_REFUSED && plan == 0 && text > 0);
    MUST(migrate_plan(at, 0, at, 0, at, 0, at, 0, &other_plan, at, 0, &other_text) == MIGRATE_REFUSED && other_plan == plan && other_text == text);
    MUST(migrate_plan_tight(NULL, 0, NULL, 0, NULL, 0, NULL, 0, &plan, NULL, 0, &other_text) == MIGRATE_REFUSED && other_text == text);
    MUST(migrate_check(NULL, 0, NULL, 0, NULL, 0, NULL, 0, NULL, 0, NULL, 0, &other_text) == MIGRATE_REFUSED && other_text == text);
    MUST(migrate_after(NULL, 0, NULL, 0, NULL, 0, NULL, 0, NULL, 0, &other_text) == MIGRATE_REFUSED && other_text == text);
    MUST(migrate_after_tight(NULL, 0, NULL, 0, NULL, 0, NULL, 0, NULL, 0, &other_text) == MIGRATE_REFUSED && other_text == text);
    MUST(migrate_after_rounds(NULL, 0, NULL, 0, NULL, 0, NULL, 0, 1, NULL, 0, &other_text) == MIGRATE_REFUSED && other_text == text);
    MUST(migrate_drain(NULL, 0, NULL, 0, NULL, 0, NULL, 0, &plan, NULL, 0, &text) == MIGRATE_NO_NAME && plan == 0);
    const char disks[] = "disk,limit,slots\na,1,9\nb,1,9\n", now[] = "item,disk,slot\n", next[] = "item,disk\n";
    const uint8_t *in[] = {(const uint8_t *)disks, (const uint8_t *)now, (const uint8_t *)next};
    size_t len[] = {sizeof disks - 1, sizeof now - 1, sizeof next - 1};
    MUST(migrate_plan(in[0], len[0], in[1], len[1], in[2], len[2], NULL, 0, &plan, NULL, 0, &text) == MIGRATE_TOO_SHORT && plan > 0 && text > 0);
}

/* Of a GiB that is handed in nothing is touched: it is too long. */
static void too_long(void)
{
    enum { HUGE_LEN = 1 << 30 };
    const char disks[] = "disk,limit,slots\na,1,9\n", now[] = "item,disk,slot\n";
    const uint8_t *in[] = {(const uint8_t *)disks, (const uint8_t *)now, NULL}, *huge = mmap(NULL, HUGE_LEN, PROT_NONE, MAP_PRIVATE | MAP_ANONYMOUS | MAP_NORESERVE, -1, 0);
    MUST(huge != MAP_FAILED);
    for (int at = 0; at < 3; at++) {
        size_t len[] = {sizeof disks - 1, sizeof now - 1, 0}, plan = 9, text = 0;
        const uint8_t *given[] = {in[0], in[1], in[2]};
        given[at] = huge, len[at] = HUGE_LEN;
        uint8_t told[64];
        MUST(migrate_plan(given[0], len[0], given[1], len[1], given[2], len[2], NULL, 0, &plan, told, sizeof told, &text) == MIGRATE_REFUSED && plan == 0);
        MUST(text < sizeof told && memcmp(told + text - 9, "too long\n", 9) == 0);
    }
}

static void time_of(long runs, char **names)
{
    enum { MOST = 16 << 20 };
    struct call given = loaded(names);
    static uint8_t plan[MOST], text[MOST];
    double least = 1e9;
    for (long n = 0; n < runs; n++) {
        struct timespec from, to;
        size_t plan_len, text_len;
        clock_gettime(CLOCK_PROCESS_CPUTIME_ID, &from);
        MUST(migrate_plan(given.in[0], given.in_len[0], given.in[1], given.in_len[1], given.in[2], given.in_len[2], plan, MOST, &plan_len, text, MOST, &text_len) == MIGRATE_DONE);
        clock_gettime(CLOCK_PROCESS_CPUTIME_ID, &to);
        double took = (double)(to.tv_sec - from.tv_sec) + (double)(to.tv_nsec - from.tv_nsec) / 1e9;
        least = took < least ? took : least;
    }
    printf("%.4f\n", least);
}

int main(int count, char **words)
{
    if (count == 6 && strcmp(words[1], "short") == 0)
        short_rooms(words[2], words + 3);
    else if (count == 4 && strcmp(words[1], "random") == 0)
        random_calls(atol(words[2]), strtoull(words[3], NULL, 10));
    else if (count == 9 && strcmp(words[1], "threads") == 0)
        two_threads(atol(words[2]), words + 3);
    else if (count == 2 && strcmp(words[1], "none") == 0)
        no_bytes(), too_long();
    else if (count == 6 && strcmp(words[1], "time") == 0)
        time_of(atol(words[2]), words + 3);
    else
        return 2;
    return 0;
}
