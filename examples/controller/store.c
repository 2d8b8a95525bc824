#include "store.h"

#include "board.h"
#include "robequarry.h"

/* A record, at the front of its page. */
typedef struct record {
    uint32_t sequence; /* one more than the record before it */
    uint16_t spot, count;
    uint8_t bytes[STORE_BYTES];
    uint32_t checksum; /* of everything before it */
} record;
enum { WORDS = sizeof(record) / 4 };

static const record *record_of(uint32_t spot, uint32_t copy) {
    return (const record *)(const void *)flash_page(2 * spot + copy);
}

static uint32_t checksum_of(const record *r) {
    return rq_checksum((const uint8_t *)r, sizeof *r - sizeof r->checksum);
}

static bool is_whole(const record *r, uint32_t spot) {
    return r->spot == spot && r->count <= STORE_BYTES && r->checksum == checksum_of(r);
}

static bool is_blank(uint32_t page) {
    const uint8_t *const bytes = flash_page(page);
    uint32_t i = 0;
    while (i < FLASH_PAGE && bytes[i] == 0xff) i++;
    return i == FLASH_PAGE;
}

/* Which copy is in use: the whole one, or the later of two whole ones; 2 if there is none. */
static uint32_t copy_in_use(uint32_t spot) {
    const bool first = is_whole(record_of(spot, 0), spot), second = is_whole(record_of(spot, 1), spot);
    if (first && second) return (int32_t)(record_of(spot, 1)->sequence - record_of(spot, 0)->sequence) > 0 ? 1 : 0;
    return first ? 0 : second ? 1 : 2;
}

static void give_up(uint32_t page) {
    if (!is_blank(page)) flash_erase(page);
}

const uint8_t *store_bytes(uint32_t spot, uint32_t *count) {
    const uint32_t copy = copy_in_use(spot);
    if (copy == 2) return 0;
    *count = record_of(spot, copy)->count;
    return record_of(spot, copy)->bytes;
}

enum stored store_open(uint32_t spot, const uint8_t **bytes, uint32_t *count) {
    const uint32_t copy = copy_in_use(spot);
    *bytes = store_bytes(spot, count);
    if (copy == 2) return is_blank(2 * spot) && is_blank(2 * spot + 1) ? STORED_NOTHING : STORED_DAMAGED;
    give_up(2 * spot + (1 - copy));
    return STORED_RECORD;
}

bool store_write(uint32_t spot, const uint8_t *bytes, uint32_t count) {
    static record r;
    const uint32_t old = copy_in_use(spot), copy = old == 0 ? 1 : 0;
    r.sequence = old == 2 ? 1 : record_of(spot, old)->sequence + 1;
    r.spot = (uint16_t)spot;
    r.count = (uint16_t)count;
    for (uint32_t i = 0; i < STORE_BYTES; i++) r.bytes[i] = i < count ? bytes[i] : 0;
    r.checksum = checksum_of(&r);
    flash_erase(2 * spot + copy);
    flash_write(2 * spot + copy, (const uint32_t *)(const void *)&r, WORDS);
    if (!is_whole(record_of(spot, copy), spot)) return false;
    give_up(2 * spot + (1 - copy));
    return true;
}
