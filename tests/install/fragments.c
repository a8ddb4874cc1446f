/* The second and the third C block of the README are the insides of functions. tests/install/run takes them out of it as they stand, to
 * second.c and third.c; what they use and do not declare is declared here.
 */
#include <stdio.h>
#include <string.h>

#include "blocks.h"

void show_names(const uint8_t *san, size_t san_len)
{
#include "second.c"
}

struct beckethand_written write_names(uint8_t *result, size_t result_len)
{
#include "third.c"
    if (w.length <= result_len)
        memcpy(result, value, w.length);
    return w;
}
