/*
 * What survives a power loss: for each spot one list of bytes, in flash. A spot has two pages. A new record is written to the one that is
 * not in use, its checksum last, and then the old one is erased. So whenever the power fails, the old record is whole or the new one is.
 */
#ifndef STORE_H
#define STORE_H

#include <stdbool.h>
#include <stdint.h>

enum { STORE_SPOTS = 16, STORE_BYTES = 624 };

/* What the pages of a spot hold. */
enum stored { STORED_NOTHING, STORED_RECORD, STORED_DAMAGED };

/*
 * The bytes of a spot, and how many; null where there is no record. To be called once at the start: it erases what a power loss left
 * beside a record. Pages without a whole record are damaged, or were written to for the first time when the power failed. They stay.
 */
enum stored store_open(uint32_t spot, const uint8_t **bytes, uint32_t *count);

/* The bytes of a spot that was opened, or null. */
const uint8_t *store_bytes(uint32_t spot, uint32_t *count);

/* Writes a record. False if flash does not hold it afterwards; the old one stays then. */
bool store_write(uint32_t spot, const uint8_t *bytes, uint32_t count);

#endif
