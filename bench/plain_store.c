/* What `migrate fill`, `audit`, `move`, `resume`, `move-tight` and `live` do with files, written plainly, to be measured beside them:
   the same reads, writes and syncs. Names are found by their hash, as in any program that does not know them before.

       plain_store fill DISKS NOW        plain_store move DISKS NOW NEXT PLAN
       plain_store audit DISKS NOW       plain_store resume DISKS NOW NEXT PLAN
       plain_store move-tight DISKS NOW NEXT PLAN
       plain_store live DISKS NOW NEXT PLAN SCRIPT, where SCRIPT has reads alone */
#define _GNU_SOURCE
#include <fcntl.h>
#include <stdint.h>
#include <stdio.h>
#include <stdlib.h>
#include <string.h>
#include <sys/file.h>
#include <unistd.h>

enum { DISKS = 1024, ITEMS = 65536, PLACES = 1 << 18, NAME = 32, SLOT = 4096, HEADER = 34, SECTOR = 512 };

struct spot { int disk, slot; };
struct shift { int item; struct spot from, to; };

struct names { int count, places[PLACES]; char texts[ITEMS][NAME + 1]; };

static struct names disk_names, item_names;
static struct spot now[ITEMS];
static int next[ITEMS];
static const unsigned char zeros[SLOT], one = 1;
static int files[DISKS], dirty[DISKS], journal = -1, journal_dirty, made, is_tight;

static void fail(const char *what) { perror(what); exit(1); }

/* The number of a name, which ends at a character and stands in a text; `at` is moved behind that character. A new name gets the next
   number where it may be added. */
static int number_of(struct names *names, char **at, char end, int most) {
    const char *name = *at;
    uint32_t hash = 2166136261u;
    while (**at != end) {
        if (**at == 0) exit(3);
        hash = (hash ^ (unsigned char)*(*at)++) * 16777619u;
    }
    int length = (int)((*at)++ - name);
    for (uint32_t place = hash % PLACES;; place = (place + 1) % PLACES) {
        int number = names->places[place] - 1;
        if (number < 0) {
            if (names->count >= most || length > NAME) exit(3);
            memcpy(names->texts[names->count], name, length);
            names->places[place] = ++names->count;
            return names->count - 1;
        }
        if (memcmp(names->texts[number], name, length) == 0 && names->texts[number][length] == 0) return number;
    }
}

static int disk_of(char **at, char end) { return number_of(&disk_names, at, end, disk_names.count); }
static int item_of(char **at, char end) { return number_of(&item_names, at, end, item_names.count); }

/* SHA-256, FIPS 180-4. */

static const uint32_t K[64] = {
    0x428a2f98, 0x71374491, 0xb5c0fbcf, 0xe9b5dba5, 0x3956c25b, 0x59f111f1, 0x923f82a4, 0xab1c5ed5, 0xd807aa98, 0x12835b01, 0x243185be,
    0x550c7dc3, 0x72be5d74, 0x80deb1fe, 0x9bdc06a7, 0xc19bf174, 0xe49b69c1, 0xefbe4786, 0x0fc19dc6, 0x240ca1cc, 0x2de92c6f, 0x4a7484aa,
    0x5cb0a9dc, 0x76f988da, 0x983e5152, 0xa831c66d, 0xb00327c8, 0xbf597fc7, 0xc6e00bf3, 0xd5a79147, 0x06ca6351, 0x14292967, 0x27b70a85,
    0x2e1b2138, 0x4d2c6dfc, 0x53380d13, 0x650a7354, 0x766a0abb, 0x81c2c92e, 0x92722c85, 0xa2bfe8a1, 0xa81a664b, 0xc24b8b70, 0xc76c51a3,
    0xd192e819, 0xd6990624, 0xf40e3585, 0x106aa070, 0x19a4c116, 0x1e376c08, 0x2748774c, 0x34b0bcb5, 0x391c0cb3, 0x4ed8aa4a, 0x5b9cca4f,
    0x682e6ff3, 0x748f82ee, 0x78a5636f, 0x84c87814, 0x8cc70208, 0x90befffa, 0xa4506ceb, 0xbef9a3f7, 0xc67178f2};

static uint32_t turn(uint32_t x, int n) { return x >> n | x << (32 - n); }

static void block(uint32_t state[8], const unsigned char *p) {
    uint32_t w[64], a = state[0], b = state[1], c = state[2], d = state[3], e = state[4], f = state[5], g = state[6], h = state[7];
    for (int i = 0; i < 16; i++, p += 4) w[i] = (uint32_t)p[0] << 24 | p[1] << 16 | p[2] << 8 | p[3];
    for (int i = 16; i < 64; i++)
        w[i] = w[i - 16] + (turn(w[i - 15], 7) ^ turn(w[i - 15], 18) ^ w[i - 15] >> 3) + w[i - 7] + (turn(w[i - 2], 17) ^ turn(w[i - 2], 19) ^ w[i - 2] >> 10);
    for (int i = 0; i < 64; i++) {
        uint32_t x = h + (turn(e, 6) ^ turn(e, 11) ^ turn(e, 25)) + ((e & f) ^ (~e & g)) + K[i] + w[i];
        uint32_t y = (turn(a, 2) ^ turn(a, 13) ^ turn(a, 22)) + ((a & b) ^ (a & c) ^ (b & c));
        h = g, g = f, f = e, e = d + x, d = c, c = b, b = a, a = x + y;
    }
    state[0] += a, state[1] += b, state[2] += c, state[3] += d, state[4] += e, state[5] += f, state[6] += g, state[7] += h;
}

static void sha256(const unsigned char *bytes, size_t length, unsigned char digest[32]) {
    uint32_t h[8] = {0x6a09e667, 0xbb67ae85, 0x3c6ef372, 0xa54ff53a, 0x510e527f, 0x9b05688c, 0x1f83d9ab, 0x5be0cd19};
    unsigned char end[128] = {0};
    size_t whole = length / 64 * 64, rest = length - whole, last = rest < 56 ? 64 : 128;
    for (size_t at = 0; at < whole; at += 64) block(h, bytes + at);
    memcpy(end, bytes + whole, rest);
    end[rest] = 0x80;
    for (int i = 0; i < 8; i++) end[last - 1 - i] = (unsigned char)((uint64_t)length * 8 >> 8 * i);
    for (size_t at = 0; at < last; at += 64) block(h, end + at);
    for (int i = 0; i < 32; i++) digest[i] = (unsigned char)(h[i / 4] >> (24 - i % 4 * 8));
}

/* Files. */

static int open_file(const char *name) {
    int file = open(name, O_RDWR | O_CLOEXEC);
    if (file < 0) {
        file = open(name, O_RDWR | O_CREAT | O_EXCL | O_CLOEXEC, 0666);
        made = 1;
    }
    if (file < 0) fail(name);
    return file;
}

static int disk_file(int disk) {
    char name[NAME + 6];
    if (files[disk] == 0) {
        snprintf(name, sizeof name, "%s.disk", disk_names.texts[disk]);
        files[disk] = open_file(name);
    }
    return files[disk];
}

static void lock_journal(void) {
    if (journal >= 0) return;
    journal = open_file("journal.mig");
    if (flock(journal, LOCK_EX | LOCK_NB)) fail("journal.mig");
}

/* Reads the first bytes of a slot. */
static void read_slot(struct spot spot, unsigned char *into, size_t length) {
    char name[NAME + 6];
    if (files[spot.disk] == 0) {
        snprintf(name, sizeof name, "%s.disk", disk_names.texts[spot.disk]);
        if (access(name, F_OK)) {
            memset(into, 0, length);
            return;
        }
    }
    ssize_t got = pread(disk_file(spot.disk), into, length, (off_t)SLOT * spot.slot);
    if (got < 0) fail("read");
    memset(into + got, 0, length - got);
}

static void write_slot(struct spot spot, const unsigned char *bytes) {
    if (pwrite(disk_file(spot.disk), bytes, SLOT, (off_t)SLOT * spot.slot) != SLOT) fail("write");
    dirty[spot.disk] = 1;
}

static void write_journal(const void *bytes, size_t length, off_t at) {
    if (pwrite(journal, bytes, length, at) != (ssize_t)length) fail("journal.mig");
    journal_dirty = 1;
}

static void sync_all(void) {
    lock_journal();
    for (int d = 0; d < DISKS; d++)
        if (dirty[d]) {
            if (fdatasync(files[d])) fail("sync");
            dirty[d] = 0;
        }
    if (journal_dirty && fdatasync(journal)) fail("sync");
    journal_dirty = 0;
    if (made) {
        int folder = open(".", O_RDONLY | O_CLOEXEC);
        if (folder < 0 || fsync(folder)) fail("sync");
        close(folder);
        made = 0;
    }
}

static int byte_of_journal(int sector) {
    unsigned char byte = 0;
    if (pread(journal, &byte, 1, (off_t)SECTOR * sector) < 0) fail("journal.mig");
    return byte;
}

static int gate_is_one(void) { return byte_of_journal(1) == 1; }

/* What is read from texts. */

static char *read_text(const char *name, size_t *length) {
    FILE *file = fopen(name, "r");
    if (!file || fseek(file, 0, SEEK_END)) fail(name);
    *length = ftell(file);
    char *text = calloc(*length + 1, 1);
    rewind(file);
    if (!text || fread(text, 1, *length, file) != *length) fail(name);
    fclose(file);
    return text;
}

static char *skip_line(char *at) { return strchr(at, '\n') + 1; }

static int number_in(char **at, char end) {
    int number = (int)strtol(*at, at, 10);
    if (*(*at)++ != end) exit(3);
    return number;
}

static void read_layout(char **words) {
    size_t length;
    for (char *at = skip_line(read_text(words[2], &length)); *at; at = skip_line(at)) number_of(&disk_names, &at, ',', DISKS);
    for (char *at = skip_line(read_text(words[3], &length)); *at;) {
        struct spot *spot = &now[number_of(&item_names, &at, ',', ITEMS)];
        spot->disk = disk_of(&at, ',');
        spot->slot = number_in(&at, '\n');
    }
}

static void read_next(const char *name) {
    size_t length;
    for (char *at = skip_line(read_text(name, &length)); *at;) {
        int item = item_of(&at, ',');
        next[item] = disk_of(&at, '\n');
    }
}

static struct shift shift_at(char **at) {
    struct shift s;
    s.item = item_of(at, ' ');
    s.from.disk = disk_of(at, ' ');
    s.from.slot = number_in(at, ' ');
    s.to.disk = disk_of(at, ' ');
    s.to.slot = number_in(at, '\n');
    if (!is_tight && next[s.item] != s.to.disk) exit(1);
    return s;
}

/* Slots. */

static void header_of(int item, unsigned char *slot) {
    memset(slot, 0, HEADER);
    slot[0] = 1;
    slot[1] = (unsigned char)strlen(item_names.texts[item]);
    memcpy(slot + 2, item_names.texts[item], slot[1]);
}

static void made_slot(int item, unsigned char *slot) {
    header_of(item, slot);
    memcpy(slot + 34, slot + 2, slot[1]);
    for (int end = 34 + slot[1]; end < SLOT; end += end - 34 < SLOT - end ? end - 34 : SLOT - end)
        memcpy(slot + end, slot + 34, end - 34 < SLOT - end ? end - 34 : SLOT - end);
}

static int is_there(int item, const unsigned char *slot) {
    unsigned char header[40];
    header_of(item, header);
    return memcmp(header, slot, HEADER) == 0;
}

/* The header of a slot, where it is to be the item's. */
static void look_for(int item, struct spot spot, int status) {
    unsigned char header[HEADER];
    read_slot(spot, header, HEADER);
    if (!is_there(item, header)) exit(status);
}

/* The header of a slot that is to be written over: it may be the item's, or of none. */
static void look_before(int item, struct spot spot) {
    unsigned char header[HEADER];
    read_slot(spot, header, HEADER);
    if (header[0] == 1 && !is_there(item, header)) exit(5);
}

/* The commands. */

static void fill(void) {
    unsigned char slot[SLOT];
    sync_all();
    if (gate_is_one()) exit(8);
    for (int i = 0; i < item_names.count; i++) {
        read_slot(now[i], slot, SLOT);
        if (slot[0] == 1) exit(9);
    }
    for (int i = 0; i < item_names.count; i++) {
        made_slot(i, slot);
        write_slot(now[i], slot);
    }
    sync_all();
    printf("filled %d\n", item_names.count);
}

static void digest_of(const unsigned char *slot, char hex[65]) {
    unsigned char digest[32];
    sha256(slot, SLOT, digest);
    for (int b = 0; b < 32; b++) {
        hex[2 * b] = "0123456789abcdef"[digest[b] >> 4];
        hex[2 * b + 1] = "0123456789abcdef"[digest[b] & 15];
    }
    hex[64] = 0;
}

static void audit(void) {
    unsigned char slot[SLOT];
    int here = 0;
    for (int i = 0; i < item_names.count; i++) {
        read_slot(now[i], slot, SLOT);
        int there = is_there(i, slot);
        here += there;
        char hex[65];
        digest_of(slot, hex);
        printf("%s %s %d %s %s\n", item_names.texts[i], disk_names.texts[now[i].disk], now[i].slot, there ? "here" : "lost", hex);
    }
    printf("%d here, %d lost\n", here, item_names.count - here);
}

struct plan { char *text; size_t length; int rounds, moved, *sizes; struct shift *shifts; };

static struct plan read_plan(const char *name) {
    struct plan plan = {0};
    plan.text = read_text(name, &plan.length);
    char *at = skip_line(plan.text);
    plan.rounds = atoi(at + 7);
    plan.sizes = calloc(plan.rounds + 1, sizeof *plan.sizes);
    plan.shifts = calloc(2 * ITEMS, sizeof *plan.shifts);
    at = skip_line(at);
    for (int r = 0; r < plan.rounds; r++) {
        strtol(at + 6, &at, 10);
        plan.sizes[r] = strtol(at, &at, 10);
        at = skip_line(at);
        for (int i = 0; i < plan.sizes[r]; i++) plan.shifts[plan.moved++] = shift_at(&at);
    }
    return plan;
}

static void check_ready(const struct plan *plan) {
    unsigned char slot[SLOT];
    for (int i = 0; i < item_names.count; i++) {
        read_slot(now[i], slot, SLOT);
        if (!is_there(i, slot)) exit(9);
    }
    /* a target is looked at once, and not where an item is now */
    unsigned char *seen = calloc(DISKS, ITEMS);
    if (!seen) fail("memory");
    for (int i = 0; i < item_names.count; i++) seen[(size_t)now[i].disk * ITEMS + now[i].slot] = 1;
    for (int i = 0; i < plan->moved; i++) {
        struct spot to = plan->shifts[i].to;
        if (seen[(size_t)to.disk * ITEMS + to.slot]) continue;
        seen[(size_t)to.disk * ITEMS + to.slot] = 1;
        read_slot(to, slot, SLOT);
        if (slot[0] == 1) exit(9);
    }
    free(seen);
    /* then the header of each item that is moved */
    for (int i = 0; i < plan->moved; i++) {
        const struct shift *s = &plan->shifts[i];
        if (s->from.disk == now[s->item].disk && s->from.slot == now[s->item].slot) look_for(s->item, s->from, 5);
    }
}

static void arm(const struct plan *plan) {
    unsigned char digest[32];
    sha256((unsigned char *)plan->text, plan->length, digest);
    for (int r = 1; r <= plan->rounds; r++) write_journal(zeros, 1, (off_t)SECTOR * (r + 1));
    write_journal(digest, 32, 0);
    sync_all();
    write_journal(&one, 1, SECTOR);
    sync_all();
}

static void erase(const struct shift *round, int size) {
    for (int i = 0; i < size; i++) {
        look_before(round[i].item, round[i].from);
        write_slot(round[i].from, zeros);
    }
}

/* Carries out the rounds after the first `found`; the shifts of the next one begin at `round`. */
static void carry_out(const struct plan *plan, int found, const struct shift *round) {
    unsigned char slot[SLOT];
    for (int r = found + 1; r <= plan->rounds; round += plan->sizes[r - 1], r++) {
        for (int i = 0; i < plan->sizes[r - 1]; i++) {
            read_slot(round[i].from, slot, SLOT);
            look_before(round[i].item, round[i].to);
            write_slot(round[i].to, slot);
        }
        sync_all();
        write_journal(&one, 1, (off_t)SECTOR * (r + 1));
        sync_all();
        erase(round, plan->sizes[r - 1]);
    }
    sync_all();
    printf("done %d rounds, found %d\n", plan->rounds, found);
}

static void move(const char *name) {
    struct plan plan = read_plan(name);
    sync_all();
    if (gate_is_one()) exit(8);
    check_ready(&plan);
    arm(&plan);
    carry_out(&plan, 0, plan.shifts);
}

/* Begins the plan, reads the items of a script of reads, and tells how many steps are left. */
static void live(const char *name, const char *script) {
    struct plan plan = read_plan(name);
    unsigned char slot[SLOT];
    size_t length;
    sync_all();
    if (gate_is_one()) exit(8);
    check_ready(&plan);
    arm(&plan);
    for (char *at = read_text(script, &length); *at;) {
        at += strlen("read ");
        int item = item_of(&at, '\n');
        char hex[65];
        look_for(item, now[item], 5);
        read_slot(now[item], slot, SLOT);
        digest_of(slot, hex);
        printf("%s %s\n", item_names.texts[item], hex);
    }
    printf("left %d\n", 2 * plan.moved + 2 * plan.rounds + 1);
}

/* The header of each item that is moved is read where the marked rounds have put it, and that of each named slot that is free then. */
static void look_for_all(const struct plan *plan, const struct shift *next) {
    unsigned char header[HEADER], *seen = calloc(DISKS, ITEMS);
    if (!seen) fail("memory");
    for (const struct shift *s = plan->shifts; s < plan->shifts + plan->moved; s++) {
        struct spot at = s < next ? s->to : s->from;
        look_for(s->item, at, 5);
        seen[(size_t)at.disk * ITEMS + at.slot] = 1;
    }
    for (const struct shift *s = plan->shifts; s < plan->shifts + plan->moved; s++) {
        struct spot at = s < next ? s->from : s->to;
        if (seen[(size_t)at.disk * ITEMS + at.slot]) continue;
        seen[(size_t)at.disk * ITEMS + at.slot] = 1;
        read_slot(at, header, HEADER);
        if (header[0] == 1) exit(5);
    }
    free(seen);
}

static void resume(const char *name) {
    struct plan plan = read_plan(name);
    unsigned char digest[32], head[32];
    sync_all();
    sha256((unsigned char *)plan.text, plan.length, digest);
    if (!gate_is_one() || pread(journal, head, sizeof head, 0) != sizeof head || memcmp(head, digest, sizeof head)) exit(8);
    const struct shift *next = plan.shifts;
    int found = 0;
    for (; found < plan.rounds && byte_of_journal(found + 2) == 1; found++) next += plan.sizes[found];
    look_for_all(&plan, next);
    if (found) erase(next - plan.sizes[found - 1], plan.sizes[found - 1]);
    carry_out(&plan, found, next);
}

int main(int count, char **words) {
    if (count < 4) return 2;
    read_layout(words);
    if (strcmp(words[1], "fill") == 0) fill();
    else if (strcmp(words[1], "audit") == 0) audit();
    else if (count < 6) return 2;
    else read_next(words[4]);
    is_tight = strcmp(words[1], "move-tight") == 0;
    if (is_tight || strcmp(words[1], "move") == 0) move(words[5]);
    else if (strcmp(words[1], "live") == 0 && count == 7) live(words[5], words[6]);
    else if (strcmp(words[1], "resume") == 0) resume(words[5]);
    return 0;
}
