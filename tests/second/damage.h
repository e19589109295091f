/* Words of an area changed by chance. */
#ifndef DAMAGE_H
#define DAMAGE_H

#include <stddef.h>
#include <stdint.h>

/* Changes one word, mostly one of the first rows; an area may be good afterwards too. */
void damage(uint8_t *area, size_t rows);

#endif
