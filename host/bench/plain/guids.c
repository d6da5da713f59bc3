/* The GUID table at the end of a guest firmware image: read, looked up, started and extended. */
#include "plain.h"

#include <string.h>

enum {
    /* How far before the image's end the table ends, its footer stands, and its total stands. */
    TABLE_END = 32,
    FOOTER_AT = 48,
    TOTAL_AT = 50,
    /* A length and a GUID, with which the table and each entry end. */
    TAIL_BYTES = 18,
    LARGEST_TOTAL = 65535
};

static const uint8_t footer[16] = {0xDE, 0x82, 0xB5, 0x96, 0xB2, 0x1F, 0xF7, 0x45, 0xBA, 0xEA, 0xA3, 0x66, 0xC5, 0x5A, 0x08, 0x2D};

int plain_guids(const uint8_t *image, size_t length, uint32_t *total, uint64_t *entries)
{
    const uint8_t *end;
    size_t left;
    uint64_t count = 0;

    if (length < TOTAL_AT)
        return PLAIN_SHORT;
    if (memcmp(image + length - FOOTER_AT, footer, sizeof footer) != 0)
        return PLAIN_SIGNATURE;
    end = image + length - TOTAL_AT;
    left = get16(end);
    if (left < TAIL_BYTES || left > length - TABLE_END)
        return PLAIN_LIMITS;
    *total = (uint32_t)left;
    for (left -= TAIL_BYTES; left > 0; count++) {
        size_t size;

        if (left < TAIL_BYTES)
            return PLAIN_STRUCTURE;
        size = get16(end - TAIL_BYTES);
        if (size < TAIL_BYTES || size > left)
            return PLAIN_STRUCTURE;
        end -= size;
        left -= size;
    }
    *entries = count;
    return PLAIN_OK;
}

int plain_guid_find(const uint8_t *image, size_t length, const uint8_t guid[16], struct plain_guid_match *match)
{
    uint32_t total;
    uint64_t entries;
    int answer = plain_guids(image, length, &total, &entries);
    const uint8_t *end;

    if (answer != PLAIN_OK)
        return answer;
    end = image + length - TOTAL_AT;
    for (uint64_t i = 0; i < entries; i++) {
        size_t size = get16(end - TAIL_BYTES);

        if (memcmp(end - 16, guid, 16) == 0) {
            match->place = (uint64_t)(end - size - image);
            match->length = size - TAIL_BYTES;
            match->tested = i + 1;
            return PLAIN_OK;
        }
        end -= size;
    }
    match->tested = entries;
    return PLAIN_ABSENT;
}

int plain_guid_start(uint8_t *buffer, size_t length)
{
    if (length < TOTAL_AT)
        return PLAIN_ROOM;
    memcpy(buffer + length - FOOTER_AT, footer, sizeof footer);
    put16(buffer + length - TOTAL_AT, TAIL_BYTES);
    return PLAIN_OK;
}

int plain_guid_extend(uint8_t *buffer, size_t length, const uint8_t guid[16], const uint8_t *data, size_t data_length,
                      uint32_t *total)
{
    uint32_t old_total;
    uint64_t entries;
    int answer = plain_guids(buffer, length, &old_total, &entries);
    size_t new_total;
    uint8_t *entry;

    if (answer != PLAIN_OK)
        return answer;
    if (data_length > LARGEST_TOTAL)
        return PLAIN_LIMITS;
    new_total = old_total + data_length + TAIL_BYTES;
    if (new_total > LARGEST_TOTAL)
        return PLAIN_LIMITS;
    if (new_total > length - TABLE_END)
        return PLAIN_ROOM;
    entry = buffer + length - TABLE_END - new_total;
    for (size_t i = 0; i < data_length + TAIL_BYTES; i++)
        if (entry[i] != 0)
            return PLAIN_WRITTEN;
    memcpy(entry, data, data_length);
    put16(entry + data_length, (uint16_t)(data_length + TAIL_BYTES));
    memcpy(entry + data_length + 2, guid, 16);
    put16(buffer + length - TOTAL_AT, (uint16_t)new_total);
    *total = (uint32_t)new_total;
    return PLAIN_OK;
}
