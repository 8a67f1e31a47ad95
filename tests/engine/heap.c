// A million random requests to engine/heap.c, held against a list of the blocks that are out. The memory is a stretch that can be touched only as far as it
// has grown, and grows to a bound that is met now and then. Ends with 0, or at the first that is wrong.
#include <assert.h>
#include <stdint.h>
#include <stdlib.h>
#include <string.h>
#include <sys/mman.h>

#define LARGE 0x4000u // which is met often here
#include "../../engine/heap.c"

#define REQUESTS 1000000
#define BLOCKS 4096
#define BOUND (80 * (word)PAGE)

static unsigned char *memory;
static word grown = 3 * (word)PAGE;

word begin(void) { return (word)memory + 1001; } // as a program's own data may end anywhere
word end_of_memory(void) { return (word)memory + grown; }
int grow(word pages) {
    if (pages > (BOUND - grown) / PAGE) return 0;
    assert(mprotect(memory + grown, pages * PAGE, PROT_READ | PROT_WRITE) == 0);
    grown += pages * PAGE;
    return 1;
}

typedef struct { unsigned char *at, mark; u64 size; } Block;
static Block blocks[BLOCKS];
static unsigned refusals;

static u64 state = 88172645463325252ull;
static u64 random_word(void) {
    state ^= state << 13, state ^= state >> 7, state ^= state << 17;
    return state;
}

// Mostly small, now and then up to a quarter of a megabyte, seldom beyond the whole memory.
static u64 random_size(void) {
    u64 word = random_word();
    if (word % 100000 == 0) return word;
    return word >> 40 & ((word % 200 == 1 ? 1u << 18 : 1u << word % 10) - 1);
}

static void hold(Block *block) {
    assert((uintptr_t)block->at % 16 == 0);
    assert(block->at >= memory && block->at + block->size <= memory + grown);
    block->mark = (unsigned char)random_word();
    memset(block->at, block->mark, block->size);
}

// Whether the first bytes of a block are as they were written.
static void look_at(const Block *block, u64 count) {
    for (u64 at = 0; at < count; at++) assert(block->at[at] == block->mark);
}

// A request may be refused only where the memory has no room for it.
static void refused(u64 size) {
    refusals++;
    assert(size > MOST - HEADER || used + size_of(class_of(size + HEADER)) > (word)memory + BOUND);
}

static void allocate(Block *block) {
    u64 size = random_size();
    Tried made = rattle_alloc(size, 1u << random_word() % 5);
    if (!made.ok) return refused(size);
    *block = (Block){(unsigned char *)made.block, 0, size};
    hold(block);
}

static void reallocate(Block *block) {
    u64 size = random_size(), kept = block->size ? random_word() % (block->size + 1) : 0;
    Tried made = rattle_realloc(block->at, kept, size, 16);
    if (!made.ok) return refused(size), look_at(block, block->size);
    block->at = (unsigned char *)made.block;
    look_at(block, kept < size ? kept : size);
    block->size = size;
    hold(block);
}

static void release(Block *block) {
    look_at(block, block->size);
    rattle_dealloc(block->at);
    block->at = 0;
}

int main(void) {
    memory = mmap(0, BOUND, PROT_NONE, MAP_PRIVATE | MAP_ANONYMOUS | MAP_NORESERVE, -1, 0);
    assert(memory != MAP_FAILED && mprotect(memory, grown, PROT_READ | PROT_WRITE) == 0);
    for (unsigned size = 1; size < 1 << 20; size++) {
        unsigned class = class_of(size);
        assert(size_of(class) >= size && size_of(class) % 16 == 0 && (class == 0 || size_of(class - 1) < size));
    }
    assert(size_of(class_of(MOST)) == MOST && class_of(MOST) < CLASSES);
    assert(!rattle_alloc(1, 32).ok && !rattle_alloc(~0ull, 1).ok && !take_room(MOST));
    rattle_dealloc(0);
    for (int request = 0; request < REQUESTS; request++) {
        Block *block = &blocks[random_word() % BLOCKS];
        if (!block->at) allocate(block);
        else if (random_word() % 3) release(block);
        else reallocate(block);
    }
    for (int k = 0; k < BLOCKS; k++)
        if (blocks[k].at) release(&blocks[k]);
    assert(refusals > 100 && refusals < REQUESTS / 10);
    return 0;
}
