/* The first three C blocks of the README, as functions; tests/kiosk builds the fourth. */
#ifndef BLOCKS_H
#define BLOCKS_H

#include "beckethand.h"

/* the first, which is a function as it stands */
int may_send(const uint8_t *san, size_t san_len, const uint8_t *subject, size_t subject_len, const uint8_t *nc, size_t nc_len,
             const uint8_t *lengths, size_t lengths_len);

/* the second: writes a line for each name of a SAN */
void show_names(const uint8_t *san, size_t san_len);

/* the third: what it says of the value that it writes, which is copied to the result where that is long enough */
struct beckethand_written write_names(uint8_t *result, size_t result_len);

#endif
