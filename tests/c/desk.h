/* What the tests of the calls share. */
#ifndef DESK_H
#define DESK_H

#include <stdbool.h>

#include "beckethand.h"

struct bytes {
    uint8_t *at;
    size_t len;
};

extern int cases;

/* says what failed, and counts it */
void check(const char *name, const char *what, bool good);

struct bytes from_hex(const char *hex);
struct bytes zeros(size_t len);

/* a copy that ends where a page ends which may not be left */
struct bytes guarded(struct bytes b);

/* request 4/13 */
void writers(void);

/* the version, which answer is a match, and what each answer means in words */
void texts(void);

#endif
