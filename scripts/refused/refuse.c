/* The heap under the tests beside it: as the kit's own, but the n-th call that takes memory can be refused. */
#include <stdbool.h>
#include <stddef.h>
#include <stdlib.h>

typedef struct {
    bool ok;
    unsigned char *p;
} tried;

static unsigned long left;
static bool met;
static unsigned char nothing;

/* Refuses the n-th call from here on. */
void refuse(unsigned long n) {
    left = n;
    met = false;
}

/* Refuses none from here on; whether one was refused. */
bool was_refused(void) {
    left = 0;
    return met;
}

static bool is_refused(void) {
    if (left == 0 || --left > 0) return false;
    met = true;
    return true;
}

static tried told(void *p) {
    return p ? (tried){true, p} : (tried){false, &nothing};
}

tried rattle_alloc(size_t size, size_t align) {
    return told(is_refused() ? NULL : malloc(size ? size : align));
}

tried rattle_realloc(void *p, size_t kept, size_t size, size_t align) {
    (void)kept;
    return told(is_refused() ? NULL : realloc(p, size ? size : align));
}

void rattle_dealloc(void *p) {
    free(p);
}
