/*
 * A plain reader of line messages, to compare with: written from docs/FORMATS.md and
 * docs/REFUSALS.md alone, by somebody who had not seen Mezgalt's code.
 */
#ifndef PLAIN_READER_H
#define PLAIN_READER_H

#include <stddef.h>
#include <stdint.h>

/* 0 for a message, else the number of the fault, with its offset through `offset`. */
uint32_t plain_check(const uint8_t *octets, size_t length, uint32_t *offset);

#endif
