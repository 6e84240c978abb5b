/* The heap of the WebAssembly module, which has no C library: the three calls of the heap that the proved code makes, and what they are
 * made of. Blocks have set sizes, two to each power of two; those that are free lie in a list for each size. A block begins 16 bytes
 * behind its head, which tells its size, and lies at a multiple of 16. Memory that was asked of the engine is never given back to it. */
#include <stddef.h>
#include <stdint.h>

#define PAGE 65536

typedef struct head {
    uint64_t kind;
    struct head *next;
} head;

extern unsigned char __heap_base;
static head *lists[96];
static uintptr_t top, end; /* what no block was made of yet */

/* With the head: 32, 48, 64, 96, 128, 192 bytes and so on. */
static size_t size_of(uint64_t kind) {
    return (size_t)(kind & 1 ? 48 : 32) << (kind >> 1);
}

static uint64_t kind_for(size_t size) {
    if (size <= 32) return 0;
    uint64_t bits = 63 - (uint64_t)__builtin_clzll(size - 1), kind = 2 * (bits - 5); /* size is above 2^bits, and at most twice that */
    return size <= size_of(kind + 1) ? kind + 1 : kind + 2;
}

/* Whether the engine gave so many pages. Of a memory of 32 bits it answers a number of 32 bits, of which -1 is all ones. */
static int has_grown(uintptr_t pages) {
    return (uint32_t)__builtin_wasm_memory_grow(0, pages) != UINT32_MAX;
}

/* At least an eighth of what there is, so that growing is rare; where that is refused, as little as will do. */
static int has_room(size_t size) {
    if (!top) {
        top = ((uintptr_t)&__heap_base + 15) & ~(uintptr_t)15;
        end = __builtin_wasm_memory_size(0) * (uintptr_t)PAGE;
    }
    if (size <= end - top) return 1;
    uintptr_t pages = (size - (end - top) + PAGE - 1) / PAGE, eighth = end / PAGE / 8;
    if (pages < eighth && has_grown(eighth)) pages = eighth;
    else if (!has_grown(pages)) return 0;
    end += pages * PAGE;
    return 1;
}

void *malloc(size_t size) {
    if (size > (size_t)1 << 46) return NULL;
    uint64_t kind = kind_for(size + sizeof(head));
    head *block = lists[kind];
    if (block) {
        lists[kind] = block->next;
    } else {
        if (!has_room(size_of(kind))) return NULL;
        block = (head *)top;
        top += size_of(kind);
        block->kind = kind;
    }
    return block + 1;
}

void free(void *memory) {
    if (!memory) return;
    head *block = (head *)memory - 1;
    block->next = lists[block->kind];
    lists[block->kind] = block;
}

static void *resized(void *memory, size_t size) {
    size_t room = size_of(((head *)memory - 1)->kind) - sizeof(head);
    if (size <= room && (room <= 128 || size >= room / 4)) return memory;
    void *other = malloc(size);
    if (!other) return size <= room ? memory : NULL;
    __builtin_memcpy(other, memory, size < room ? size : room);
    free(memory);
    return other;
}

/* As the proved code calls them. An alignment divides 16. Where memory is refused the address is of nothing. */
typedef struct {
    uint64_t done;
    void *memory;
} answer;

static answer answered(void *memory) {
    static char nothing;
    return memory ? (answer){1, memory} : (answer){0, &nothing};
}

/* For tests: the growth with this number from now on is refused; 0 is none. */
static uint32_t refused;

__attribute__((export_name("refuse"))) uint32_t refuse(uint32_t growth) {
    uint32_t left = refused;
    refused = growth;
    return left;
}

static int is_refused(void) {
    return refused && --refused == 0;
}

answer rattle_alloc(size_t size, size_t align) {
    return answered(is_refused() ? NULL : malloc(size ? size : align));
}

answer rattle_realloc(void *memory, size_t kept, size_t size, size_t align) {
    (void)kept;
    return answered(is_refused() ? NULL : resized(memory, size ? size : align));
}

void rattle_dealloc(void *memory) {
    free(memory);
}
