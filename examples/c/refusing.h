/* A heap for tests: one growth after the other can be refused, and each block has to come back. */
#ifndef REFUSING_H
#define REFUSING_H

#include <stdbool.h>
#include <stddef.h>

/* Refuses the growth of this number from now on, counted from 1, and no other; none for 0. The count below begins
   anew. */
void refuse_growth(size_t number);

/* Whether it was refused. */
bool was_growth_refused(void);

/* How many growths the library asked for since then. */
size_t growths_made(void);

/* How many blocks and bytes the library has. */
size_t blocks_held(void);
size_t bytes_held(void);

#endif
