/* Flash images: from the EFS to the directories, their entries and bytes, one by one or all at once, the two lookups, and the writing
 * of a directory. */
#include "plain.h"

#include <string.h>

enum {
    LONGEST_IMAGE = 16777216,
    HEADER_BYTES = 16,
    ENTRY_BYTES = 16,
    FEW_ENTRIES = 64,
    PAIRS = 65536, /* of a type and a subprogram */
    TYPE_LEVEL_TWO = 0x40,
    TYPE_VALUE = 0x0B
};

static const uint64_t window_end = UINT64_C(1) << 32;
static const uint64_t location_mask = (UINT64_C(1) << 62) - 1;

/* 359 words keep both sums below 2^32 where they start below 65,535. */
enum { WORDS_A_FOLD = 359 };

uint32_t plain_checksum(const uint8_t *bytes, size_t length)
{
    size_t words = length / 2;
    uint32_t sum = 0, weighted = 0;

    while (words > 0) {
        size_t block = words < WORDS_A_FOLD ? words : WORDS_A_FOLD;
        const uint8_t *end = bytes + 2 * block;

        for (; bytes < end; bytes += 2) {
            sum += get16(bytes);
            weighted += sum;
        }
        sum %= 65535;
        weighted %= 65535;
        words -= block;
    }
    return (weighted ? weighted : 65535) << 16 | (sum ? sum : 65535);
}

static const char *cookie_of(uint32_t level)
{
    return level == 1 ? "$PSP" : "$PL2";
}

/* Says that a refusal was met in the header of the directory at `place`, and passes it on. */
static int in_header(int answer, uint32_t level, uint64_t place, struct plain_met *met)
{
    met->in = PLAIN_MET_HEADER;
    met->level = level;
    met->index = 0;
    met->directory = place;
    return answer;
}

/* The same of an entry of it. */
static int in_entry(int answer, uint32_t level, uint64_t index, uint64_t place, struct plain_met *met)
{
    met->in = PLAIN_MET_ENTRY;
    met->level = level;
    met->index = index;
    met->directory = place;
    return answer;
}

/* An entry by itself: its reserved bits, and whether it may stand in a directory of the level. */
static int check_entry(const uint8_t *entry, uint32_t level)
{
    if (get16(entry + 2) != 0)
        return PLAIN_FIELD;
    if (level == 2 && entry[0] == TYPE_LEVEL_TWO)
        return PLAIN_MISPLACED;
    return PLAIN_OK;
}

/* Whether one of the first `count` entries has this type and subprogram. */
static bool holds_pair(const uint8_t *entries, uint32_t count, uint16_t pair)
{
    for (uint32_t i = 0; i < count; i++)
        if (get16(entries + (size_t)i * ENTRY_BYTES) == pair)
            return true;
    return false;
}

/* Few entries. Most have a type of their own, and only one whose type was seen is held against the earlier ones: that costs
 * less than to clear the marks of all pairs. Where one is refused, `refused` is its index. */
static int check_few(const uint8_t *entries, uint32_t total, uint32_t level, uint32_t *refused)
{
    bool type_seen[256] = {false};

    for (uint32_t i = 0; i < total; i++) {
        const uint8_t *entry = entries + (size_t)i * ENTRY_BYTES;
        int answer = check_entry(entry, level);

        if (answer == PLAIN_OK && type_seen[entry[0]] && holds_pair(entries, i, get16(entry)))
            answer = PLAIN_REPEATED;
        if (answer != PLAIN_OK) {
            *refused = i;
            return answer;
        }
        type_seen[entry[0]] = true;
    }
    return PLAIN_OK;
}

/* Any number of entries, in one pass: a bit for each type and subprogram that was seen. */
static int check_many(const uint8_t *entries, uint32_t total, uint32_t level, uint32_t *refused)
{
    uint64_t seen[PAIRS / 64];

    memset(seen, 0, sizeof seen);
    for (uint32_t i = 0; i < total; i++) {
        const uint8_t *entry = entries + (size_t)i * ENTRY_BYTES;
        int answer = check_entry(entry, level);
        uint16_t pair = get16(entry);
        uint64_t bit = UINT64_C(1) << pair % 64;

        if (answer == PLAIN_OK && seen[pair / 64] & bit)
            answer = PLAIN_REPEATED;
        if (answer != PLAIN_OK) {
            *refused = i;
            return answer;
        }
        seen[pair / 64] |= bit;
    }
    return PLAIN_OK;
}

/* The directory of a level at a place that does not lie beyond the bytes. */
static int check_directory(const uint8_t *bytes, size_t length, uint64_t place, uint32_t level, struct plain_directory *found,
                           struct plain_met *met)
{
    const uint8_t *header = bytes + place;
    size_t left = length - place;
    uint32_t total, refused = 0;
    int answer;

    if (left < HEADER_BYTES)
        return in_header(PLAIN_SHORT, level, place, met);
    if (memcmp(header, cookie_of(level), 4) != 0)
        return in_header(PLAIN_SIGNATURE, level, place, met);
    total = get32(header + 8);
    if (total > PLAIN_MOST_ENTRIES)
        return in_header(PLAIN_LIMITS, level, place, met);
    if (left - HEADER_BYTES < (size_t)total * ENTRY_BYTES)
        return in_header(PLAIN_SHORT, level, place, met);
    if (get32(header + 4) != plain_checksum(header + 8, 8 + (size_t)total * ENTRY_BYTES))
        return in_header(PLAIN_CHECKSUM, level, place, met);
    if (get32(header + 12) != 0)
        return in_header(PLAIN_FIELD, level, place, met);
    if (total <= FEW_ENTRIES)
        answer = check_few(header + HEADER_BYTES, total, level, &refused);
    else
        answer = check_many(header + HEADER_BYTES, total, level, &refused);
    if (answer != PLAIN_OK)
        return in_entry(answer, level, refused, place, met);
    found->place = place;
    found->level = level;
    found->total = total;
    return PLAIN_OK;
}

/* The same of the level that the cookie says. Of one that says none the level is told as 0. */
static int check_by_cookie(const uint8_t *bytes, size_t length, uint64_t place, struct plain_directory *found,
                           struct plain_met *met)
{
    if (length - place < HEADER_BYTES)
        return in_header(PLAIN_SHORT, 0, place, met);
    for (uint32_t level = 1; level <= 2; level++)
        if (memcmp(bytes + place, cookie_of(level), 4) == 0)
            return check_directory(bytes, length, place, level, found, met);
    return in_header(PLAIN_SIGNATURE, 0, place, met);
}

static struct plain_entry read_entry(const uint8_t *at)
{
    uint64_t last = get64(at + 8);
    struct plain_entry entry = {at[0], at[1], get32(at + 4), last & location_mask, (uint32_t)(last >> 62)};

    return entry;
}

static const uint8_t *entry_bytes(const uint8_t *image, const struct plain_directory *directory, uint64_t index)
{
    return image + directory->place + HEADER_BYTES + index * ENTRY_BYTES;
}

/* The flash offset of a physical address, in an image of a good length: the window has as many bytes, and ends at 4 GiB. */
static int offset_of(uint64_t address, size_t length, uint64_t *offset)
{
    uint64_t window_first = window_end - length;

    if (address < window_first || address >= window_end)
        return PLAIN_OUTSIDE;
    *offset = address - window_first;
    return PLAIN_OK;
}

/* Where an entry of the directory at `place` leads. No sum passes 2^64: a location has 62 bits. */
static int follow(const struct plain_entry *entry, size_t length, uint64_t place, uint64_t *offset)
{
    switch (entry->mode) {
    case 0:
        return offset_of(entry->location, length, offset);
    case 1:
        *offset = entry->location;
        return PLAIN_OK;
    case 2:
        *offset = place + entry->location;
        return PLAIN_OK;
    default:
        return PLAIN_MODE;
    }
}

/* Where level one begins, as the first EFS tells. */
static int find_root(const uint8_t *image, size_t length, uint64_t *root)
{
    static const uint32_t candidates[] = {0xFFFA0000, 0xFFF20000, 0xFFE20000, 0xFFC20000, 0xFF820000, 0xFF020000};
    static const uint8_t signature[4] = {0xAA, 0x55, 0xAA, 0x55};

    for (size_t i = 0; i < sizeof candidates / sizeof candidates[0]; i++) {
        const uint8_t *efs;
        uint64_t place;
        uint32_t pointer;

        if (offset_of(candidates[i], length, &place) != PLAIN_OK)
            continue;
        /* All of it is there: no candidate lies near the window's end. */
        efs = image + place;
        if (memcmp(efs, signature, sizeof signature) != 0)
            continue;
        pointer = get32(efs + 0x14);
        if (pointer == 0 || pointer == 0xFFFFFFFF)
            pointer = get32(efs + 0x10);
        if (pointer == 0 || pointer == 0xFFFFFFFF)
            return PLAIN_ABSENT;
        if (pointer < length) {
            *root = pointer;
            return PLAIN_OK;
        }
        return offset_of(pointer, length, root);
    }
    return PLAIN_SIGNATURE;
}

static int level_one(const uint8_t *image, size_t length, struct plain_directory *found, struct plain_met *met)
{
    uint64_t root;
    int answer;

    if (length == 0 || length > LONGEST_IMAGE)
        return PLAIN_IMAGE;
    answer = find_root(image, length, &root);
    if (answer != PLAIN_OK)
        return answer;
    return check_directory(image, length, root, 1, found, met);
}

/* The level two to which entry `index` of level one leads. */
static int level_two(const uint8_t *image, size_t length, const struct plain_directory *one, uint32_t index,
                     struct plain_directory *found, struct plain_met *met)
{
    struct plain_entry entry = read_entry(entry_bytes(image, one, index));
    uint64_t place;
    int answer = follow(&entry, length, one->place, &place);

    if (answer == PLAIN_OK && place > length)
        answer = PLAIN_OUTSIDE;
    if (answer != PLAIN_OK)
        return in_entry(answer, 1, index, one->place, met);
    return check_directory(image, length, place, 2, found, met);
}

int plain_directory(const uint8_t *image, size_t length, uint32_t level, struct plain_directory *found, struct plain_met *met)
{
    struct plain_directory one;
    int answer;

    if (level != 1 && level != 2)
        return PLAIN_RANGE;
    answer = level_one(image, length, &one, met);
    if (answer != PLAIN_OK)
        return answer;
    if (level == 1) {
        *found = one;
        return PLAIN_OK;
    }
    for (uint32_t i = 0; i < one.total; i++)
        if (entry_bytes(image, &one, i)[0] == TYPE_LEVEL_TWO)
            return level_two(image, length, &one, i, found, met);
    return PLAIN_ABSENT;
}

int plain_entry_of(const uint8_t *image, const struct plain_directory *directory, uint64_t index, struct plain_entry *entry)
{
    if (index >= directory->total)
        return PLAIN_ABSENT;
    *entry = read_entry(entry_bytes(image, directory, index));
    return PLAIN_OK;
}

/* Where the bytes of an entry lie, in the directory at `place`. */
static int locate(const struct plain_entry *entry, size_t length, uint64_t place, struct plain_part *part)
{
    uint64_t offset;
    int answer;

    if (entry->type == TYPE_VALUE)
        return PLAIN_VALUE;
    answer = follow(entry, length, place, &offset);
    if (answer != PLAIN_OK)
        return answer;
    if (offset > length || entry->size > length - offset)
        return PLAIN_OUTSIDE;
    part->place = offset;
    part->length = entry->size;
    return PLAIN_OK;
}

int plain_part_of(const uint8_t *image, size_t length, const struct plain_directory *directory, uint64_t index,
                  struct plain_part *part, struct plain_met *met)
{
    struct plain_entry entry;
    int answer = plain_entry_of(image, directory, index, &entry);

    if (answer != PLAIN_OK)
        return answer;
    answer = locate(&entry, length, directory->place, part);
    if (answer != PLAIN_OK)
        return in_entry(answer, directory->level, index, directory->place, met);
    return PLAIN_OK;
}

void plain_entries_of(const uint8_t *image, size_t length, const struct plain_directory *directory, struct plain_row *rows)
{
    for (uint32_t i = 0; i < directory->total; i++) {
        rows[i].entry = read_entry(entry_bytes(image, directory, i));
        rows[i].answer = locate(&rows[i].entry, length, directory->place, &rows[i].part);
    }
}

int plain_view_entries(const uint8_t *image, size_t length, uint64_t place, struct plain_row *rows,
                       struct plain_directory *found, struct plain_met *met)
{
    int answer;

    if (length == 0 || length > LONGEST_IMAGE)
        return PLAIN_IMAGE;
    if (place > length)
        return PLAIN_OUTSIDE;
    answer = check_by_cookie(image, length, place, found, met);
    if (answer != PLAIN_OK)
        return answer;
    plain_entries_of(image, length, found, rows);
    return PLAIN_OK;
}

int plain_directories(const uint8_t *image, size_t length, struct plain_entered *entered, uint32_t *count,
                      struct plain_met *met)
{
    const struct plain_directory *one = &entered[0].directory;
    uint32_t found = 1;
    int answer = level_one(image, length, &entered[0].directory, met);

    if (answer != PLAIN_OK)
        return answer;
    entered[0].lead = 0;
    for (uint32_t i = 0; i < one->total; i++) {
        if (entry_bytes(image, one, i)[0] != TYPE_LEVEL_TWO)
            continue;
        answer = level_two(image, length, one, i, &entered[found].directory, met);
        if (answer != PLAIN_OK)
            return answer;
        entered[found].lead = i;
        found++;
    }
    *count = found;
    return PLAIN_OK;
}

int plain_entry(const uint8_t *image, size_t length, uint32_t level, uint64_t index, struct plain_entry *entry,
                struct plain_met *met)
{
    struct plain_directory directory;
    int answer = plain_directory(image, length, level, &directory, met);

    return answer != PLAIN_OK ? answer : plain_entry_of(image, &directory, index, entry);
}

int plain_part(const uint8_t *image, size_t length, uint32_t level, uint64_t index, struct plain_part *part,
               struct plain_met *met)
{
    struct plain_directory directory;
    int answer = plain_directory(image, length, level, &directory, met);

    return answer != PLAIN_OK ? answer : plain_part_of(image, length, &directory, index, part, met);
}

/* The index of the first match in a directory, or its total. */
static uint32_t first_match(const uint8_t *image, const struct plain_directory *directory, uint8_t type, uint8_t subprogram)
{
    uint32_t i;

    for (i = 0; i < directory->total; i++) {
        const uint8_t *at = entry_bytes(image, directory, i);

        if (at[0] == type && at[1] == subprogram)
            break;
    }
    return i;
}

int plain_find(const uint8_t *image, size_t length, uint32_t level, uint8_t type, uint8_t subprogram, struct plain_match *match,
               struct plain_met *met)
{
    struct plain_directory directory;
    int answer = plain_directory(image, length, level, &directory, met);
    uint32_t index;

    if (answer != PLAIN_OK) {
        match->tested = 0;
        return answer;
    }
    index = first_match(image, &directory, type, subprogram);
    if (index == directory.total) {
        match->tested = directory.total;
        return PLAIN_ABSENT;
    }
    match->index = index;
    match->tested = index + 1;
    return PLAIN_OK;
}

/* Says where the match is. */
static int matched(const struct plain_directory *directory, uint32_t index, uint64_t tested, struct plain_image_match *match)
{
    match->place = directory->place;
    match->level = directory->level;
    match->index = index;
    match->tested = tested;
    return PLAIN_OK;
}

int plain_find_image(const uint8_t *image, size_t length, uint8_t type, uint8_t subprogram, struct plain_image_match *match,
                     struct plain_met *met)
{
    struct plain_directory one, two;
    uint64_t tested = 0;
    int answer = level_one(image, length, &one, met);

    match->tested = 0;
    if (answer != PLAIN_OK)
        return answer;
    for (uint32_t i = 0; i < one.total; i++) {
        const uint8_t *at = entry_bytes(image, &one, i);
        uint32_t index;

        tested++;
        if (at[0] == type && at[1] == subprogram)
            return matched(&one, i, tested, match);
        if (at[0] != TYPE_LEVEL_TWO)
            continue;
        answer = level_two(image, length, &one, i, &two, met);
        if (answer != PLAIN_OK)
            return answer;
        index = first_match(image, &two, type, subprogram);
        if (index < two.total)
            return matched(&two, index, tested + index + 1, match);
        tested += two.total;
    }
    match->tested = tested;
    return PLAIN_ABSENT;
}

int plain_start(uint8_t *buffer, size_t length, uint32_t level)
{
    if (level != 1 && level != 2)
        return PLAIN_RANGE;
    if (length < HEADER_BYTES)
        return PLAIN_ROOM;
    memcpy(buffer, cookie_of(level), 4);
    memset(buffer + 8, 0, 8);
    put32(buffer + 4, plain_checksum(buffer + 8, 8));
    return PLAIN_OK;
}

int plain_extend(uint8_t *buffer, size_t length, const struct plain_entry *entry, uint32_t *total, struct plain_met *met)
{
    struct plain_directory directory;
    int answer = check_by_cookie(buffer, length, 0, &directory, met);
    uint8_t *at;

    if (answer != PLAIN_OK)
        return answer;
    if (entry->location > location_mask || entry->mode > 3)
        return PLAIN_FIELD;
    if (directory.level == 2 && entry->type == TYPE_LEVEL_TWO)
        return PLAIN_MISPLACED;
    if (holds_pair(buffer + HEADER_BYTES, directory.total, (uint16_t)(entry->type | entry->subprogram << 8)))
        return PLAIN_REPEATED;
    if (directory.total == PLAIN_MOST_ENTRIES)
        return PLAIN_LIMITS;
    if (length < HEADER_BYTES + (size_t)(directory.total + 1) * ENTRY_BYTES)
        return PLAIN_ROOM;
    at = buffer + HEADER_BYTES + (size_t)directory.total * ENTRY_BYTES;
    at[0] = entry->type;
    at[1] = entry->subprogram;
    put16(at + 2, 0);
    put32(at + 4, entry->size);
    put64(at + 8, entry->location | (uint64_t)entry->mode << 62);
    *total = directory.total + 1;
    put32(buffer + 8, *total);
    put32(buffer + 4, plain_checksum(buffer + 8, 8 + (size_t)*total * ENTRY_BYTES));
    return PLAIN_OK;
}
