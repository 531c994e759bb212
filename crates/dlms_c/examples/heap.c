/* The heap of the library over a fixed array, in place of malloc: first fit, and neighbours that are free are joined. */
#include <stdbool.h>
#include <stddef.h>
#include <stdint.h>
#include <string.h>

#ifndef HEAP
#define HEAP (1 << 20)
#endif

/* What the library is answered: whether there is room, and where. THE POINTER IS NEVER NULL. */
struct tried { uintptr_t ok; void *at; };

/* A block begins with its size, this header with it, and whether it is taken. Blocks stand one after another. */
struct block { size_t size; size_t is_taken; };

static _Alignas(16) unsigned char heap[HEAP];
static size_t used, most;

static struct block *at(size_t place) { return (struct block *)(void *)(heap + place); }

static void begin(void) {
    if (at(0)->size == 0) at(0)->size = HEAP;
}

struct tried rattle_alloc(size_t size, size_t align) {
    (void)align; /* at most 16 */
    begin();
    size_t whole = ((size + 15) & ~(size_t)15) + sizeof(struct block);
    if (size <= HEAP)
        for (size_t place = 0; place < HEAP; place += at(place)->size) {
            struct block *block = at(place);
            while (!block->is_taken && place + block->size < HEAP && !at(place + block->size)->is_taken) block->size += at(place + block->size)->size;
            if (block->is_taken || block->size < whole) continue;
            if (block->size > whole) {
                *at(place + whole) = (struct block){block->size - whole, 0};
                block->size = whole;
            }
            block->is_taken = 1;
            used += whole;
            if (used > most) most = used;
            return (struct tried){1, block + 1};
        }
    return (struct tried){0, heap};
}

void rattle_dealloc(void *given) {
    struct block *block = (struct block *)given - 1;
    used -= block->size;
    block->is_taken = 0;
}

/* The first `kept` octets are kept; `given` stays as it is where there is no room. */
struct tried rattle_realloc(void *given, size_t kept, size_t size, size_t align) {
    struct tried tried = rattle_alloc(size, align);
    if (tried.ok) {
        memcpy(tried.at, given, kept < size ? kept : size);
        rattle_dealloc(given);
    }
    return tried;
}

/* The most octets of it that were ever taken. */
size_t heap_most(void) { return most; }
