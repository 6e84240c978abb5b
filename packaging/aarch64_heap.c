/* The three calls of the heap that proved code makes, for aarch64: the kit has them for x86-64 alone. Where memory is wanting the address
 * is that of `nothing`, since none may be null. */
typedef struct {
    unsigned long is_there;
    void *at;
} allocated;

void *malloc(unsigned long bytes);
void *realloc(void *old, unsigned long bytes);
void free(void *old);

static char nothing;

static allocated answer(void *at) {
    return (allocated){at != 0, at ? at : &nothing};
}

allocated rattle_alloc(unsigned long bytes, unsigned long align) {
    return answer(malloc(bytes ? bytes : align));
}

allocated rattle_realloc(void *old, unsigned long kept, unsigned long bytes, unsigned long align) {
    (void)kept;
    return answer(realloc(old, bytes ? bytes : align));
}

void rattle_dealloc(void *old) {
    free(old);
}
