// The heap of a module that has no C library: what the crates' allocator calls, and room for what the host hands over.
//
// A block is a header of 16 bytes, which holds its class, and behind it what was asked for. From 64 bytes on four classes lie between a power
// of two and the next. A block that is given back goes on the list of its class, and is handed out for that class alone. Where the list is
// empty, a block is cut off the end of what is in use, and the memory grows as need be. It never shrinks.

typedef unsigned long long u64;
typedef __UINTPTR_TYPE__ word;
typedef struct { u64 ok, block; } Tried; // as the calling convention of x86-64 passes a struct of a bool and a pointer
typedef struct Free { struct Free *next; } Free;

#define HEADER 16
#define PAGE 65536
#define CLASSES 128
#ifndef LARGE
#define LARGE 0x100000u // from this size on a block that grows is given room to grow further, so that no smaller copies of it are left behind
#endif
#define SPACIOUS 64 // how many times as large such a block is at most
#define MOST 0xa0000000u // bytes of a block with its header: no sum below exceeds a word of 32 bits, since the memory has at most 3 GiB

#ifdef __wasm__
extern unsigned char __heap_base;
static word begin(void) { return (word)&__heap_base; }
static word end_of_memory(void) { return __builtin_wasm_memory_size(0) * PAGE; }
static int grow(word pages) { return __builtin_wasm_memory_grow(0, pages) != (word)-1; }
#define EXPORT(name) __attribute__((export_name(name)))
#else // the tests have these, for a memory of their own
word begin(void);
word end_of_memory(void);
int grow(word pages);
#define EXPORT(name)
#endif

static Free *lists[CLASSES];
static word used; // where the part of the memory begins that was never handed out; 0: nothing was yet

// The bytes of a block with its header: 32, 48, 64, 80, 96, 112, 128, 160, ..
static word size_of(unsigned class) {
    return class < 2 ? (word)(2 + class) * 16 : (word)(4 + (class - 2) % 4) << ((class - 2) / 4 + 4);
}

// The least class of blocks that have so many bytes with their header.
static unsigned class_of(word size) {
    if (size <= 64) return size <= 32 ? 0 : size <= 48 ? 1 : 2;
    unsigned last = (unsigned)size - 1, bit = 31 - __builtin_clz(last); // at least 6
    return (bit - 6) * 4 + (last >> (bit - 2)) % 4 + 3;
}

static unsigned *class_at(void *block) { return (unsigned *)((word)block - HEADER); }

// Whether the memory has so many bytes behind what is in use, if need be after it has grown: by a quarter, so that it seldom grows, or by what lacks.
static int has_room_for(word size) {
    word end = end_of_memory();
    if (size <= end - used) return 1;
    word lacking = (size - (end - used) + PAGE - 1) / PAGE, quarter = end / PAGE / 4;
    return (quarter > lacking && grow(quarter)) || grow(lacking);
}

static void *cut(unsigned class) {
    if (!used) used = (begin() + HEADER - 1) & ~(word)(HEADER - 1);
    word size = size_of(class), at = used;
    if (!has_room_for(size)) return 0;
    used += size;
    void *block = (void *)(at + HEADER);
    *class_at(block) = class;
    return block;
}

// A block of so many bytes, or null where there is no memory.
static void *take(u64 size) {
    if (size > MOST - HEADER) return 0;
    unsigned class = class_of((word)size + HEADER);
    Free *first = lists[class];
    if (!first) return cut(class);
    lists[class] = first->next;
    return first;
}

static void give_back(void *block) {
    unsigned class = *class_at(block);
    Free *first = block;
    first->next = lists[class];
    lists[class] = first;
}

// Whether a block may stay where it is as one of so many bytes: it has them, and not many times as many.
static int may_stay(void *block, u64 size) {
    word has = size_of(*class_at(block)) - HEADER;
    return size <= has && size >= has / (has < LARGE ? 4 : SPACIOUS);
}

// A block for what was in a smaller one: a large one with room to grow further, as much as is given while little of the memory is in use, and later less.
// What isn't written of it costs addresses alone, while each smaller copy that is left behind was written.
static void *take_grown(u64 size) {
    void *block = 0;
    if (size >= LARGE && used - begin() <= MOST / 4 && size <= MOST / 4 / SPACIOUS) block = take(SPACIOUS * size - HEADER);
    if (!block && size >= LARGE && size <= MOST / 16) block = take(4 * size - HEADER);
    return block ? block : take(size);
}

static Tried tried(void *block) { return (Tried){block != 0, (word)block}; }

// What the crates' allocator calls. Every block is aligned to 16 bytes, which is more than any of their types asks.
Tried rattle_alloc(u64 size, u64 align) { return tried(align <= HEADER ? take(size) : 0); }

void rattle_dealloc(void *block) {
    if (block) give_back(block);
}

Tried rattle_realloc(void *block, u64 kept, u64 size, u64 align) {
    if (!block || align > HEADER) return block ? tried(0) : rattle_alloc(size, align);
    if (may_stay(block, size)) return tried(block);
    void *other = size > kept ? take_grown(size) : take(size);
    if (!other) return tried(0);
    __builtin_memcpy(other, block, kept < size ? kept : size);
    give_back(block);
    return tried(other);
}

// What the host calls: room for its bytes, null where there is none, and back.
EXPORT("take_room") void *take_room(word size) { return take(size); }
EXPORT("give_back_room") void give_back_room(void *block) { give_back(block); }
