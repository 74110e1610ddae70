/* libmigrate: the planner of `migrate` inside another program.
 *
 * Each function takes the bytes of the files that the command of the same name reads, and gives the bytes of the files that it saves and
 * of what it prints. The formats, the statuses and the texts are those of `migrate` (docs/FORMATS.md). Nothing is read, written or
 * printed besides.
 *
 * Bytes that are handed in: a pointer and how many there are. They are only read. They need no zero at their end. At most 16 MiB of
 * them count; what has more is refused as too long, like a file.
 *
 * Bytes that are handed back: a pointer, how many there is room for, and where their number is to be put. With status 0 that many stand
 * at the pointer. Nothing is written behind them, and nothing past the room. Where there is too little room, as much as fits is
 * written, the number is that of all of them, above the room, and the status is MIGRATE_TOO_SHORT in place of 0: call again with as
 * much room as the numbers say. Any other status stays as it is where its text is cut off, so that a caller who doesn't want the texts of
 * failures may give no room for them. No zero is put at the end of a text.
 *
 * A pointer to bytes may be NULL where their number is 0, and one to room where there is none; no other one may. What is handed back may overlap
 * neither what is handed in nor each other. A call that keeps to neither ends with MIGRATE_BAD_CALL; that there is as much as the numbers say, nothing can tell.
 *
 * All memory is the caller's, but for what a call takes from malloc and gives back before it ends. Where malloc refuses, the status is
 * MIGRATE_NO_MEMORY. A call over texts needs at most 100 KiB of
 * stack. A text of few lines with very many commas is the worst: reading it may take 32 times its bytes of memory.
 *
 * Threads: there is no state between calls, and any number of threads may call at once, as long as none writes into what another one
 * has handed in or out. Don't call from a signal handler, nor from the forked child of a process with several threads.
 *
 * The same bytes give the same bytes. docs/CONTRACTS.md has what is proved of each function, docs/CHANGES.md what each version changed. The proved code
 * has no unwind tables: a debugger's stack of a call ends in it. */
#ifndef MIGRATE_H
#define MIGRATE_H

#include <stdbool.h>
#include <stddef.h>
#include <stdint.h>

/* The version of these calls and of the formats. A program that was linked with another one of the same first number runs with this one. */
#define MIGRATE_VERSION "1.2.0"

#ifdef __cplusplus
extern "C" {
#endif

enum {
    MIGRATE_DONE = 0,
    MIGRATE_BLAMED = 1,      /* check, after: something is wrong with the plan, or with the certificate; the text says what */
    MIGRATE_NO_NAME = 2,     /* drain: no disk may have this name */
    MIGRATE_REFUSED = 3,     /* the tables stand for no input; the text says where, and why */
    MIGRATE_NO_MEMORY = 7,
    MIGRATE_NOT_SPELLED = 10, /* check, after: the plan or the certificate is no such text; the text has the line */
    MIGRATE_NO_PLAN = 13,    /* plan_tight: no plan at all can be carried out; the text says why */
    MIGRATE_CANNOT_DRAIN = 14, /* drain: no disk has this name, or the others have too few free slots; the text says which */
    MIGRATE_TOO_SHORT = 100, /* done, but there is too little room; no status of the program is this */
    MIGRATE_BAD_CALL = 101,  /* a pointer is NULL that may not be, or room overlaps something else: nothing was done */
};

/* The version of the library that is linked. */
const char *migrate_version(void);

/* So much room is enough for any plan, and so much for its certificate. */
#define MIGRATE_ROOM 16777216

/* Plans. `plan`: the plan. `text`: its certificate with status 0, and why there is no plan with another one.
 * Statuses: 0, 3, 7, 100. */
uint32_t migrate_plan(const uint8_t *disks, size_t disks_len, const uint8_t *now, size_t now_len, const uint8_t *next, size_t next_len,
                      uint8_t *plan, size_t plan_room, size_t *plan_len, uint8_t *text, size_t text_room, size_t *text_len);

/* Judges a plan and its certificate. A plan of migrate_plan_tight is blamed for what it parks: migrate_after_tight judges that. `text`: `optimal` or `bounded` and a line feed with status 0, and what is wrong with another one.
 * Statuses: 0, 1, 3, 7, 10, 100. */
uint32_t migrate_check(const uint8_t *disks, size_t disks_len, const uint8_t *now, size_t now_len, const uint8_t *next, size_t next_len,
                       const uint8_t *plan, size_t plan_len, const uint8_t *cert, size_t cert_len,
                       uint8_t *text, size_t text_room, size_t *text_len);

/* Where the items are after a plan. `text`: that layout, in the form of a table `now`, with status 0, and what is wrong with another one.
 * Statuses: 0, 1, 3, 7, 10, 100. */
uint32_t migrate_after(const uint8_t *disks, size_t disks_len, const uint8_t *now, size_t now_len, const uint8_t *next, size_t next_len,
                       const uint8_t *plan, size_t plan_len, uint8_t *text, size_t text_room, size_t *text_len);

/* Plans where disks are too full for old and incoming items together: one shift in each round, and items are parked where they must be.
 * `plan`: the plan. `text`: `rounds R, parked N` and a line feed with status 0, and why there is no plan with another one.
 * Statuses: 0, 3, 7, 13, 100. */
uint32_t migrate_plan_tight(const uint8_t *disks, size_t disks_len, const uint8_t *now, size_t now_len, const uint8_t *next, size_t next_len,
                            uint8_t *plan, size_t plan_room, size_t *plan_len, uint8_t *text, size_t text_room, size_t *text_len);

/* As migrate_after, without asking whether the disks have room: for plans of migrate_plan_tight. */
uint32_t migrate_after_tight(const uint8_t *disks, size_t disks_len, const uint8_t *now, size_t now_len, const uint8_t *next, size_t next_len,
                             const uint8_t *plan, size_t plan_len, uint8_t *text, size_t text_room, size_t *text_len);

/* As migrate_after_tight, after the first `rounds` of a plan, or after all where it has no more: what `migrate halt` saves as LAYOUT there. */
uint32_t migrate_after_rounds(const uint8_t *disks, size_t disks_len, const uint8_t *now, size_t now_len, const uint8_t *next, size_t next_len,
                              const uint8_t *plan, size_t plan_len, uint32_t rounds, uint8_t *text, size_t text_room, size_t *text_len);

/* Where the items of a disk go so that it is emptied in the fewest rounds. `name`: the disk's name, 1 to 32 letters, digits, `_`, `-` or
 * `.`. `next`: a table of next disks, to be handed to migrate_plan together with `disks` and `now`. `text`: the number of rounds and what
 * shows that no fewer are enough with status 0, and why there is no table with another one.
 * Statuses: 0, 2, 3, 7, 14, 100. */
uint32_t migrate_drain(const uint8_t *disks, size_t disks_len, const uint8_t *now, size_t now_len, const uint8_t *name, size_t name_len,
                       uint8_t *next, size_t next_room, size_t *next_len, uint8_t *text, size_t text_room, size_t *text_len);

/* The same planner over numbers: no text is made and none is read, and a call needs at most 16 KiB of stack. Disks and items are named by their places in
 * their tables, from 0; slots count from 0, rounds from 1. Limits are split, an outgoing and an incoming one, or joint: then `out_limit` is the limit, and
 * `in_limit` isn't looked at. At most 1,024 disks, 65,536 items, limits of 1 to 1,024, and 1 to 65,536 slots. */
struct migrate_disk { uint32_t out_limit, in_limit, slots; };
struct migrate_item { uint32_t disk, slot, next_disk; };
struct migrate_shift { uint32_t item, to_disk, to_slot, round; };
struct migrate_limits { uint32_t out_limit, in_limit; };
struct migrate_pair { uint32_t from, to; };

/* What is found: the rounds, the greatest quotient of a disk's transfers and its limit, the class, and the bound, which `value` rounds or more are needed for:
 * of `load` transfers of `disk`, of one of its sides (0 out, 1 in), or inside of a set of disks. */
struct migrate_found { uint32_t rounds, quotient, limits, bound, disk, side, load, value; };
enum { MIGRATE_EVEN = 0, MIGRATE_GENERAL = 1, MIGRATE_SPLIT = 2 };
enum { MIGRATE_BOUND_NOTHING = 0, MIGRATE_BOUND_DISK = 1, MIGRATE_BOUND_SIDE = 2, MIGRATE_BOUND_SET = 3 };

/* Why there is no plan: the first thing that is wrong, in the sizes, then the disks, then the items, then the room of the disks; at which disk or item, and of
 * a disk that lacks room or slots how many it needs and has. */
struct migrate_refused { uint32_t cause, place, needs, has; };
enum {
    MIGRATE_TOO_MANY_DISKS = 1, MIGRATE_TOO_MANY_ITEMS = 2,
    MIGRATE_OUT_OF_RANGE = 3,  /* a limit or the slots of the disk */
    MIGRATE_UNKNOWN_DISK = 4,  /* the one that the item is on */
    MIGRATE_SLOT_TOO_HIGH = 5, /* the item's */
    MIGRATE_SLOT_TAKEN = 6,    /* by an item before it */
    MIGRATE_UNKNOWN_NEXT = 7,  /* the disk that the item is to go to */
    MIGRATE_NO_ROOM = 8,       /* for the items that are on the disk and those that come to it */
    MIGRATE_TOO_MANY_COMING = 9, /* more items are to be on the disk than it has slots: with MIGRATE_NO_PLAN, as the next */
    MIGRATE_NO_FREE_SLOT = 10,   /* each slot of each disk has an item */
};

/* Plans. `shifts`: one for each item that is to go to another disk, in the order of their rounds, each to the lowest slot that is free then. There are never
 * more than items; where there is room for fewer than there are, as many as fit are written, and the status is MIGRATE_TOO_SHORT. `set`: the disks of a bound
 * that is a set, as many as fit, and their number. With MIGRATE_REFUSED `refused` is written in place of all others. NULL may stand where there is no room.
 * Statuses: 0, 3, 7, 100. */
uint32_t migrate_plan_numbers(bool split, const struct migrate_disk *disks, size_t disk_count, const struct migrate_item *items, size_t item_count,
                              struct migrate_shift *shifts, size_t shift_room, size_t *shift_count, uint32_t *set, size_t set_room, size_t *set_count,
                              struct migrate_found *found, struct migrate_refused *refused);

/* Schedules transfers between disks, without slots. `rounds`: for each pair its round, or 0 where both ends are one disk; with less room than there are pairs
 * nothing is written, and the status is MIGRATE_TOO_SHORT. In `refused` a pair is an item: its `from` the disk that it is on, its `to` the one that it is to go to.
 * Statuses: 0, 3, 7, 100. */
uint32_t migrate_schedule(bool split, const struct migrate_limits *limits, size_t disk_count, const struct migrate_pair *pairs, size_t pair_count,
                          uint32_t *rounds, size_t round_room, uint32_t *set, size_t set_room, size_t *set_count,
                          struct migrate_found *found, struct migrate_refused *refused);

/* What a check says of a plan: that it is right, or the first thing that is wrong, with the round, the item, disk or shift at `place`, and a number that was kept
 * beside the one that is counted. */
struct migrate_verdict { uint32_t what, round, place, kept, counted; };
enum {
    MIGRATE_OPTIMAL = 0, MIGRATE_BOUNDED = 1,  /* as many rounds as the bound's value, or more */
    MIGRATE_EMPTY_ROUND = 2,
    MIGRATE_NOT_HERE = 3,          /* the item was shifted before: a shift takes an item from where it is in the beginning */
    MIGRATE_TWICE_IN_ROUND = 4,    /* the item */
    MIGRATE_SLOT_NOT_FREE = 5,     /* that the item goes to */
    MIGRATE_OVER_LIMIT = 6,        /* the disk, with `counted` transfers */
    MIGRATE_WRONG_END = 7,         /* the item isn't on its next disk in the end */
    MIGRATE_MOVED_TOO_OFTEN = 8,   /* the item, in `counted` shifts */
    MIGRATE_ROUNDS_DIFFER = 9, MIGRATE_QUOTIENT_DIFFERS = 10, MIGRATE_LIMITS_DIFFER = 11, MIGRATE_LOAD_DIFFERS = 12, MIGRATE_VALUE_DIFFERS = 13,
    MIGRATE_BAD_SHIFT = 14,        /* the shift at `place` has an item, disk, slot or round that isn't there, or there are too many */
    MIGRATE_BAD_FOUND = 15,        /* `found` and `set` are of no bound for such limits */
};

/* Judges the shifts of a plan, in any order, and what was found with it, as migrate_plan_numbers gives them. `verdict` is written with 0, 1 and 10, `refused` with 3.
 * Statuses: 0, 1, 3, 7, 10. */
uint32_t migrate_check_numbers(bool split, const struct migrate_disk *disks, size_t disk_count, const struct migrate_item *items, size_t item_count,
                               const struct migrate_shift *shifts, size_t shift_count, const uint32_t *set, size_t set_count,
                               const struct migrate_found *found, struct migrate_verdict *verdict, struct migrate_refused *refused);

/* Plans where disks are too full for old and incoming items together. Each round is one shift; an item that must be parked has two, so as many are parked as there are
 * more shifts than items that are to go to another disk. There are never more shifts than twice the items; with too little room it is as with migrate_plan_numbers.
 * `refused` is written with 3 and 13. Statuses: 0, 3, 7, 13, 100. */
uint32_t migrate_plan_tight_numbers(bool split, const struct migrate_disk *disks, size_t disk_count, const struct migrate_item *items, size_t item_count,
                                    struct migrate_shift *shifts, size_t shift_room, size_t *shift_count, struct migrate_refused *refused);

/* What shows that a disk needs so many rounds to be emptied: it has `count` items, of which at most `limit` may leave it in a round; or in one round less the other
 * disks can take only `count` of them. */
struct migrate_drained { uint32_t rounds, shown, count, limit; };
enum { MIGRATE_SHOWN_NOTHING = 0, MIGRATE_SHOWN_OWN = 1, MIGRATE_SHOWN_OTHERS = 2 };

/* Where the items go so that a disk is emptied in the fewest rounds. `next`: the next disk of each item, to be put into `items` for migrate_plan_numbers; those that
 * stand there must be disks, 0 or any, and aren't looked at. With less room than there are items nothing is written, and the status is MIGRATE_TOO_SHORT. With
 * MIGRATE_CANNOT_DRAIN `refused` says that the disk is MIGRATE_UNKNOWN_DISK, or that there is MIGRATE_NO_ROOM: it has `needs` items, the others `has` free slots.
 * Statuses: 0, 3, 7, 14, 100. */
uint32_t migrate_drain_numbers(bool split, const struct migrate_disk *disks, size_t disk_count, const struct migrate_item *items, size_t item_count,
                               uint32_t disk, uint32_t *next, size_t next_room, struct migrate_drained *drained, struct migrate_refused *refused);

#ifdef __cplusplus
}
#endif

#endif
