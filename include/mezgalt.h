/*
 * Mezgalt for host programs in C: checking line messages, and the lengths of the pieces in
 * which a unit goes out. Link with libhost.a and the kit's librattle_c.a.
 *
 * No function allocates, keeps state or touches memory other than what it is given; all may
 * be called from any thread. Pointers must not be null unless the length beside them is 0.
 */
#ifndef MEZGALT_H
#define MEZGALT_H

#include <stddef.h>
#include <stdint.h>

#ifdef __cplusplus
extern "C" {
#endif

/*
 * Whether octets are a line message: four octets of label and a UDT, UDTS, XUDT or XUDTS.
 *
 * Answers 0 where they are, else the number of the first fault:
 *   11 the length is not 5 to 272       12 no such message type
 *   13 the pointers are cut off         14 protocol class or hop counter
 *   15 a pointer                        16 an address
 *   17 the data                         18 an option
 * and writes through `offset` where the fault stands, counted from the type octet (the one
 * behind the label), or 0 where there is none. `offset` must not be null; it is always
 * written. docs/REFUSALS.md has the faults in full.
 */
uint32_t mezgalt_check(const uint8_t *octets, size_t length, uint32_t *offset);

/*
 * In how many messages a unit of `length` octets goes out between a called and a calling
 * address of so many octets each: 1 where it goes in one, up to 16.
 *
 * Answers 0 where an address length is not 2 to 32, the unit is not 1 to 3,952 octets, or it
 * would take more than 16 pieces.
 */
uint32_t mezgalt_piece_count(uint32_t called, uint32_t calling, uint32_t length);

/*
 * How many octets of the unit the message of number `index` carries, from 0. Together they
 * are the unit. Answers 0 where mezgalt_piece_count does, or where there is no such message.
 */
uint32_t mezgalt_piece_length(uint32_t called, uint32_t calling, uint32_t length, uint32_t index);

#ifdef __cplusplus
}
#endif

#endif
