/* Tries lib/heap.c by itself, for tests/library: what is aligned, kept, refused and given back. */
#include "../lib/heap.c"
#include <stdio.h>

static int failed;

static void must(int holds, const char *what, size_t size, size_t align)
{
    if (!holds)
        failed = 1, fprintf(stderr, "%s: %zu bytes, aligned to %zu\n", what, size, align);
}

static unsigned char byte_at(size_t place)
{
    return (unsigned char)(place * 7 + 1);
}

int main(void)
{
    static const size_t SIZES[] = {0, 1, 15, 16, 17, 4095, 4096, 70000};
    enum { COUNT = sizeof SIZES / sizeof *SIZES };
    for (size_t align = 1; align <= 4096; align *= 2) {
        for (int from = 0; from < COUNT; from++) {
            for (int to = 0; to < COUNT; to++) {
                struct block block = rattle_alloc(SIZES[from], align);
                must(block.is_given && (uintptr_t)block.at % align == 0, "a block isn't given, or isn't aligned", SIZES[from], align);
                unsigned char *bytes = block.at;
                for (size_t i = 0; i < SIZES[from]; i++)
                    bytes[i] = byte_at(i);
                block = rattle_realloc(block.at, SIZES[from], SIZES[to], align);
                must(block.is_given && (uintptr_t)block.at % align == 0, "a block isn't given anew, or isn't aligned", SIZES[to], align);
                bytes = block.at;
                for (size_t i = 0; i < SIZES[from] && i < SIZES[to]; i++)
                    must(bytes[i] == byte_at(i), "a byte isn't kept", SIZES[to], align);
                for (size_t i = 0; i < SIZES[to]; i++)
                    bytes[i] = 0;
                rattle_dealloc(block.at);
            }
        }
        struct block kept = rattle_alloc(8, align), none = rattle_alloc(PTRDIFF_MAX - 4096, align), more = rattle_realloc(kept.at, 8, SIZE_MAX, align);
        must(!none.is_given && none.at != NULL, "more than there is isn't refused", PTRDIFF_MAX - 4096, align);
        must(!more.is_given && more.at != NULL, "more than there is isn't refused anew", SIZE_MAX, align);
        rattle_dealloc(kept.at);
    }
    return failed;
}
