/* The heap of the module, in the place of malloc, realloc and free: blocks of size classes, four to each power of two,
 * from memory that grows by 1 MiB at least. The 16 bytes before a block have its size. No proof covers this file. */
typedef unsigned long size_t;
typedef unsigned char u8;

struct tried {
    unsigned long ok;
    void *at;
};

struct head {
    size_t size;
    struct head *next;
};

enum { CLASSES = 160, PAGE = 1 << 16, LEAST_PAGES = 16 };

static const size_t MOST = (size_t)1 << 40;

extern u8 __heap_base;
static struct head *free_of[CLASSES];
static u8 *next, *end;

/* The class of a block of so many bytes, and the size of that class's blocks. */
static unsigned class_of(size_t bytes, size_t *size) {
    if (bytes <= 64) {
        *size = bytes ? (bytes + 15) & ~(size_t)15 : 16;
        return (unsigned)(*size / 16 - 1);
    }
    unsigned top = 63 - (unsigned)__builtin_clzl(bytes - 1);
    size_t step = (size_t)1 << (top - 2);
    *size = (bytes + step - 1) & ~(step - 1);
    return (top - 5) * 4 + (unsigned)((*size - ((size_t)1 << top)) >> (top - 2)) - 1;
}

/* Makes room for a block at the end; 0 where the memory can't grow. */
static int grow(size_t bytes) {
    if (!next) {
        next = (u8 *)(((size_t)&__heap_base + 15) & ~(size_t)15);
        end = (u8 *)(__builtin_wasm_memory_size(0) * PAGE);
    }
    if ((size_t)(end - next) >= bytes) return 1;
    size_t pages = (bytes - (size_t)(end - next) + PAGE - 1) / PAGE;
    if (pages < LEAST_PAGES) pages = LEAST_PAGES;
    /* A refusal is -1 in 32 bits once the module is lowered to a memory of 32 bits, and in 64 before. */
    if ((unsigned)__builtin_wasm_memory_grow(0, pages) == (unsigned)-1) return 0;
    end += pages * PAGE;
    return 1;
}

static void *take(size_t bytes) {
    size_t size;
    if (bytes > MOST) return 0;
    unsigned class = class_of(bytes, &size);
    struct head *block = free_of[class];
    if (block) {
        free_of[class] = block->next;
        return block + 1;
    }
    if (!grow(size + sizeof *block)) return 0;
    block = (struct head *)next;
    next += size + sizeof *block;
    block->size = size;
    return block + 1;
}

static void give(void *at) {
    struct head *block = (struct head *)at - 1;
    size_t size;
    unsigned class = class_of(block->size, &size);
    block->next = free_of[class];
    free_of[class] = block;
}

struct tried rattle_alloc(size_t bytes, size_t align) {
    (void)align;
    void *at = take(bytes);
    return (struct tried){at != 0, at};
}

void rattle_dealloc(void *at) { give(at); }

struct tried rattle_realloc(void *at, size_t kept, size_t bytes, size_t align) {
    (void)align;
    struct head *block = (struct head *)at - 1;
    size_t size;
    unsigned class = class_of(block->size, &size);
    if (bytes > 0 && bytes <= block->size && class_of(bytes, &size) == class) return (struct tried){1, at};
    void *moved = take(bytes);
    if (moved) {
        __builtin_memcpy(moved, at, kept < bytes ? kept : bytes);
        give(at);
    }
    return (struct tried){moved != 0, moved};
}

/* For the page's arguments and answers. */
__attribute__((export_name("page_alloc"))) void *page_alloc(size_t bytes) { return take(bytes); }
__attribute__((export_name("page_free"))) void page_free(void *at) { give(at); }

/* What clang calls by itself. */
void *memcpy(void *to, const void *from, size_t bytes) {
    u8 *a = to;
    const u8 *b = from;
    while (bytes--) *a++ = *b++;
    return to;
}

/* The product of integers of 128 bits, of which clang's own library is not linked. */
typedef unsigned __int128 u128;

u128 __multi3(u128 a, u128 b) {
    const unsigned long LOW = 0xffffffff;
    unsigned long al = (unsigned long)a, ah = (unsigned long)(a >> 64);
    unsigned long bl = (unsigned long)b, bh = (unsigned long)(b >> 64);
    unsigned long low = (al & LOW) * (bl & LOW), left = (al >> 32) * (bl & LOW), right = (al & LOW) * (bl >> 32);
    unsigned long middle = (low >> 32) + (left & LOW) + (right & LOW);
    unsigned long high = (al >> 32) * (bl >> 32) + (left >> 32) + (right >> 32) + (middle >> 32) + al * bh + ah * bl;
    return ((u128)high << 64) | (low & LOW) | (middle << 32);
}
