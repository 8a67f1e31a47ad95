// The heap of engine/heap.c, which refuses what a test names of what the crates ask for. engine/build links the library with it to engine/out/refusing.wasm.

#define rattle_alloc granted
#define rattle_dealloc taken_back
#define rattle_realloc granted_anew
#include "../../engine/heap.c"
#undef rattle_alloc
#undef rattle_dealloc
#undef rattle_realloc

static u64 asked, first, last, out;

// From now on the requests of these numbers are refused, counted from 1.
EXPORT("refuse") void refuse(u64 from, u64 to) { asked = 0, first = from, last = to; }
// How many requests there were since then, and how many blocks are out.
EXPORT("requests") u64 requests(void) { return asked; }
EXPORT("blocks_out") u64 blocks_out(void) { return out; }

static int is_refused(void) { return ++asked >= first && asked <= last; }

Tried rattle_alloc(u64 size, u64 align) {
    Tried made = is_refused() ? tried(0) : granted(size, align);
    out += made.ok;
    return made;
}

void rattle_dealloc(void *block) {
    out -= block != 0;
    taken_back(block);
}

Tried rattle_realloc(void *block, u64 kept, u64 size, u64 align) {
    Tried made = is_refused() ? tried(0) : granted_anew(block, kept, size, align);
    out += made.ok && !block;
    return made;
}
