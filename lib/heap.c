/* What the proved code of the library has from C: its memory, from malloc, realloc and free of the program that it is linked with, the version, and
 * the functions of migrate.h, which look at their pointers first. A block that is taken is told with whether it was given; what has no bytes still
 * has a place. */
#include "migrate.h"
#include <stdalign.h>
#include <stdbool.h>
#include <stdlib.h>
#include <string.h>

struct block {
    bool is_given;
    void *at;
};

static char nothing;

static struct block block_at(void *at)
{
    return (struct block){at != NULL, at != NULL ? at : &nothing};
}

/* malloc aligns for any plain type. What is to be aligned more has a size that is a multiple of it. */
static void *taken(size_t size, size_t align)
{
    if (align <= alignof(max_align_t))
        return malloc(size != 0 ? size : align);
    return size > SIZE_MAX - align ? NULL : aligned_alloc(align, size / align * align + align);
}

struct block rattle_alloc(size_t size, size_t align)
{
    return block_at(taken(size, align));
}

struct block rattle_realloc(void *at, size_t old_size, size_t size, size_t align)
{
    if (align <= alignof(max_align_t))
        return block_at(realloc(at, size != 0 ? size : align));
    void *to = taken(size, align);
    if (to != NULL) {
        memcpy(to, at, old_size < size ? old_size : size);
        free(at);
    }
    return block_at(to);
}

void rattle_dealloc(void *at)
{
    free(at);
}

const char *migrate_version(void)
{
    return MIGRATE_VERSION;
}

/* What is handed in, or room for what is handed back. */
struct part {
    const void *at;
    size_t count, size;
    bool is_room;
};

#define IN(at, count) {at, count, sizeof *(at), false}
#define ROOM(at, count) {at, count, sizeof *(at), true}
#define ONE(at) ROOM(at, 1)
#define UNLESS_BAD(call, ...) \
    (is_bad((const struct part[]){__VA_ARGS__}, sizeof((const struct part[]){__VA_ARGS__}) / sizeof(struct part)) ? MIGRATE_BAD_CALL : (call))

static bool is_there(struct part part)
{
    return part.at != NULL && part.count <= PTRDIFF_MAX / part.size && part.count * part.size <= UINTPTR_MAX - (uintptr_t)part.at;
}

static bool overlap(struct part a, struct part b)
{
    uintptr_t from = (uintptr_t)a.at, other = (uintptr_t)b.at;
    return from < other + b.count * b.size && other < from + a.count * a.size;
}

/* Whether one with something in it is NULL or past the end of memory, or room overlaps something else. */
static bool is_bad(const struct part *parts, size_t count)
{
    for (size_t i = 0; i < count; i++) {
        if (parts[i].count != 0 && !is_there(parts[i]))
            return true;
        for (size_t j = 0; j < i && parts[i].count != 0; j++) {
            if (parts[j].count != 0 && (parts[i].is_room || parts[j].is_room) && overlap(parts[i], parts[j]))
                return true;
        }
    }
    return false;
}

extern __typeof__(migrate_plan) proved_plan;

uint32_t migrate_plan(const uint8_t *disks, size_t disks_len, const uint8_t *now, size_t now_len, const uint8_t *next, size_t next_len,
                      uint8_t *plan, size_t plan_room, size_t *plan_len, uint8_t *text, size_t text_room, size_t *text_len)
{
    return UNLESS_BAD(proved_plan(disks, disks_len, now, now_len, next, next_len, plan, plan_room, plan_len, text, text_room, text_len),
                      IN(disks, disks_len), IN(now, now_len), IN(next, next_len), ROOM(plan, plan_room), ONE(plan_len), ROOM(text, text_room),
                      ONE(text_len));
}

extern __typeof__(migrate_check) proved_check;

uint32_t migrate_check(const uint8_t *disks, size_t disks_len, const uint8_t *now, size_t now_len, const uint8_t *next, size_t next_len,
                       const uint8_t *plan, size_t plan_len, const uint8_t *cert, size_t cert_len, uint8_t *text, size_t text_room,
                       size_t *text_len)
{
    return UNLESS_BAD(proved_check(disks, disks_len, now, now_len, next, next_len, plan, plan_len, cert, cert_len, text, text_room, text_len),
                      IN(disks, disks_len), IN(now, now_len), IN(next, next_len), IN(plan, plan_len), IN(cert, cert_len), ROOM(text, text_room),
                      ONE(text_len));
}

extern __typeof__(migrate_after) proved_after;

uint32_t migrate_after(const uint8_t *disks, size_t disks_len, const uint8_t *now, size_t now_len, const uint8_t *next, size_t next_len,
                       const uint8_t *plan, size_t plan_len, uint8_t *text, size_t text_room, size_t *text_len)
{
    return UNLESS_BAD(proved_after(disks, disks_len, now, now_len, next, next_len, plan, plan_len, text, text_room, text_len),
                      IN(disks, disks_len), IN(now, now_len), IN(next, next_len), IN(plan, plan_len), ROOM(text, text_room), ONE(text_len));
}

extern __typeof__(migrate_plan_tight) proved_plan_tight;

uint32_t migrate_plan_tight(const uint8_t *disks, size_t disks_len, const uint8_t *now, size_t now_len, const uint8_t *next, size_t next_len,
                            uint8_t *plan, size_t plan_room, size_t *plan_len, uint8_t *text, size_t text_room, size_t *text_len)
{
    return UNLESS_BAD(proved_plan_tight(disks, disks_len, now, now_len, next, next_len, plan, plan_room, plan_len, text, text_room, text_len),
                      IN(disks, disks_len), IN(now, now_len), IN(next, next_len), ROOM(plan, plan_room), ONE(plan_len), ROOM(text, text_room),
                      ONE(text_len));
}

extern __typeof__(migrate_after_tight) proved_after_tight;

uint32_t migrate_after_tight(const uint8_t *disks, size_t disks_len, const uint8_t *now, size_t now_len, const uint8_t *next, size_t next_len,
                             const uint8_t *plan, size_t plan_len, uint8_t *text, size_t text_room, size_t *text_len)
{
    return UNLESS_BAD(proved_after_tight(disks, disks_len, now, now_len, next, next_len, plan, plan_len, text, text_room, text_len),
                      IN(disks, disks_len), IN(now, now_len), IN(next, next_len), IN(plan, plan_len), ROOM(text, text_room), ONE(text_len));
}

extern __typeof__(migrate_after_rounds) proved_after_rounds;

uint32_t migrate_after_rounds(const uint8_t *disks, size_t disks_len, const uint8_t *now, size_t now_len, const uint8_t *next, size_t next_len,
                              const uint8_t *plan, size_t plan_len, uint32_t rounds, uint8_t *text, size_t text_room, size_t *text_len)
{
    return UNLESS_BAD(proved_after_rounds(disks, disks_len, now, now_len, next, next_len, plan, plan_len, rounds, text, text_room, text_len),
                      IN(disks, disks_len), IN(now, now_len), IN(next, next_len), IN(plan, plan_len), ROOM(text, text_room), ONE(text_len));
}

extern __typeof__(migrate_drain) proved_drain;

uint32_t migrate_drain(const uint8_t *disks, size_t disks_len, const uint8_t *now, size_t now_len, const uint8_t *name, size_t name_len,
                       uint8_t *next, size_t next_room, size_t *next_len, uint8_t *text, size_t text_room, size_t *text_len)
{
    return UNLESS_BAD(proved_drain(disks, disks_len, now, now_len, name, name_len, next, next_room, next_len, text, text_room, text_len),
                      IN(disks, disks_len), IN(now, now_len), IN(name, name_len), ROOM(next, next_room), ONE(next_len), ROOM(text, text_room),
                      ONE(text_len));
}

extern __typeof__(migrate_plan_numbers) proved_plan_numbers;

uint32_t migrate_plan_numbers(bool split, const struct migrate_disk *disks, size_t disk_count, const struct migrate_item *items,
                              size_t item_count, struct migrate_shift *shifts, size_t shift_room, size_t *shift_count, uint32_t *set,
                              size_t set_room, size_t *set_count, struct migrate_found *found, struct migrate_refused *refused)
{
    return UNLESS_BAD(
                      proved_plan_numbers(split, disks, disk_count, items, item_count, shifts, shift_room, shift_count, set, set_room, set_count, found, refused),
                      IN(disks, disk_count), IN(items, item_count), ROOM(shifts, shift_room), ONE(shift_count), ROOM(set, set_room),
                      ONE(set_count), ONE(found), ONE(refused));
}

extern __typeof__(migrate_schedule) proved_schedule;

uint32_t migrate_schedule(bool split, const struct migrate_limits *limits, size_t disk_count, const struct migrate_pair *pairs, size_t pair_count,
                          uint32_t *rounds, size_t round_room, uint32_t *set, size_t set_room, size_t *set_count, struct migrate_found *found,
                          struct migrate_refused *refused)
{
    return UNLESS_BAD(proved_schedule(split, limits, disk_count, pairs, pair_count, rounds, round_room, set, set_room, set_count, found, refused),
                      IN(limits, disk_count), IN(pairs, pair_count), ROOM(rounds, round_room), ROOM(set, set_room), ONE(set_count), ONE(found),
                      ONE(refused));
}

extern __typeof__(migrate_check_numbers) proved_check_numbers;

uint32_t migrate_check_numbers(bool split, const struct migrate_disk *disks, size_t disk_count, const struct migrate_item *items,
                               size_t item_count, const struct migrate_shift *shifts, size_t shift_count, const uint32_t *set, size_t set_count,
                               const struct migrate_found *found, struct migrate_verdict *verdict, struct migrate_refused *refused)
{
    return UNLESS_BAD(
                      proved_check_numbers(split, disks, disk_count, items, item_count, shifts, shift_count, set, set_count, found, verdict, refused),
                      IN(disks, disk_count), IN(items, item_count), IN(shifts, shift_count), IN(set, set_count), IN(found, 1), ONE(verdict),
                      ONE(refused));
}

extern __typeof__(migrate_plan_tight_numbers) proved_plan_tight_numbers;

uint32_t migrate_plan_tight_numbers(bool split, const struct migrate_disk *disks, size_t disk_count, const struct migrate_item *items,
                                    size_t item_count, struct migrate_shift *shifts, size_t shift_room, size_t *shift_count,
                                    struct migrate_refused *refused)
{
    return UNLESS_BAD(proved_plan_tight_numbers(split, disks, disk_count, items, item_count, shifts, shift_room, shift_count, refused),
                      IN(disks, disk_count), IN(items, item_count), ROOM(shifts, shift_room), ONE(shift_count), ONE(refused));
}

extern __typeof__(migrate_drain_numbers) proved_drain_numbers;

uint32_t migrate_drain_numbers(bool split, const struct migrate_disk *disks, size_t disk_count, const struct migrate_item *items, size_t item_count,
                               uint32_t disk, uint32_t *next, size_t next_room, struct migrate_drained *drained, struct migrate_refused *refused)
{
    return UNLESS_BAD(proved_drain_numbers(split, disks, disk_count, items, item_count, disk, next, next_room, drained, refused),
                      IN(disks, disk_count), IN(items, item_count), ROOM(next, next_room), ONE(drained), ONE(refused));
}
