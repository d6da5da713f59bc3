/* The AMD Secure Processor Table: read from its 112 bytes, and written into them. */
#include "plain.h"

#include <string.h>

enum {
    TABLE_BYTES = 112,
    STRUCTURES_AT = 52,
    STRUCTURE_BYTES = 20,
    STRUCTURES = 3,
    REVISION = 2,
    PAGE_BYTES = 4096,
    REGISTER_BYTES = 4,
    SEV_ID = 0x01
};

/* The types of structure. */
enum { TYPE_GLOBAL, TYPE_SEV, TYPE_ACPI };

static uint8_t sum_of(const uint8_t *bytes)
{
    uint8_t sum = 0;

    for (size_t i = 0; i < TABLE_BYTES; i++)
        sum = (uint8_t)(sum + bytes[i]);
    return sum;
}

/* The register space begins at a page and ends at 2^64 or before. */
static bool space_fits(uint64_t base, uint32_t pages)
{
    return base % PAGE_BYTES == 0 && base / PAGE_BYTES + pages <= UINT64_C(1) << 52;
}

static int register_count(uint16_t type)
{
    return type == TYPE_ACPI ? 1 : 3;
}

/* The type is one of the three, and was not seen before. */
static bool type_fits(uint16_t type, bool seen[STRUCTURES])
{
    if (type > TYPE_ACPI || seen[type])
        return false;
    seen[type] = true;
    return true;
}

static bool registers_fit(const struct plain_structure *structure, uint32_t pages)
{
    for (int i = 0; i < register_count(structure->type); i++)
        if ((uint64_t)structure->registers[i] + REGISTER_BYTES > (uint64_t)PAGE_BYTES * pages)
            return false;
    return true;
}

static bool reserved_zero(const uint8_t *part, uint16_t type)
{
    if (type == TYPE_SEV)
        return (part[5] | part[6] | part[7]) == 0;
    if (type == TYPE_ACPI && get64(part + 12) != 0)
        return false;
    return get32(part + 4) == 0;
}

static int read_structure(const uint8_t *part, uint32_t pages, bool seen[STRUCTURES], struct plain_structure *structure)
{
    uint16_t type = get16(part);

    if (get16(part + 2) != STRUCTURE_BYTES || !type_fits(type, seen))
        return PLAIN_STRUCTURE;
    if (!reserved_zero(part, type))
        return PLAIN_FIELD;
    if (type == TYPE_SEV && part[4] != SEV_ID)
        return PLAIN_FIELD;
    memset(structure, 0, sizeof *structure);
    structure->type = type;
    structure->id = part[4];
    for (int i = 0; i < register_count(type); i++)
        structure->registers[i] = get32(part + 8 + 4 * i);
    return registers_fit(structure, pages) ? PLAIN_OK : PLAIN_OUTSIDE;
}

int plain_aspt_read(const uint8_t *bytes, size_t length, struct plain_aspt *table)
{
    struct plain_aspt read;
    bool seen[STRUCTURES] = {false};

    if (length < TABLE_BYTES)
        return PLAIN_SHORT;
    if (memcmp(bytes, "ASPT", 4) != 0)
        return PLAIN_SIGNATURE;
    if (get32(bytes + 4) != TABLE_BYTES)
        return PLAIN_LIMITS;
    if (bytes[8] != REVISION)
        return PLAIN_FIELD;
    if (sum_of(bytes) != 0)
        return PLAIN_CHECKSUM;
    read.base = get64(bytes + 36);
    read.pages = get32(bytes + 44);
    if (!space_fits(read.base, read.pages))
        return PLAIN_FIELD;
    if (get32(bytes + 48) != STRUCTURES)
        return PLAIN_LIMITS;
    for (int i = 0; i < STRUCTURES; i++) {
        int answer = read_structure(bytes + STRUCTURES_AT + STRUCTURE_BYTES * i, read.pages, seen, &read.structures[i]);

        if (answer != PLAIN_OK)
            return answer;
    }
    memcpy(read.oem, bytes + 10, sizeof read.oem);
    memcpy(read.oem_table, bytes + 16, sizeof read.oem_table);
    read.oem_revision = get32(bytes + 24);
    read.creator = get32(bytes + 28);
    read.creator_revision = get32(bytes + 32);
    *table = read;
    return PLAIN_OK;
}

static void put_structure(uint8_t *part, const struct plain_structure *structure)
{
    memset(part, 0, STRUCTURE_BYTES);
    put16(part, structure->type);
    put16(part + 2, STRUCTURE_BYTES);
    if (structure->type == TYPE_SEV)
        part[4] = structure->id;
    for (int i = 0; i < register_count(structure->type); i++)
        put32(part + 8 + 4 * i, structure->registers[i]);
}

int plain_aspt_write(uint8_t *buffer, size_t length, const struct plain_aspt *table)
{
    bool seen[STRUCTURES] = {false};

    if (!space_fits(table->base, table->pages))
        return PLAIN_FIELD;
    for (int i = 0; i < STRUCTURES; i++) {
        const struct plain_structure *structure = &table->structures[i];

        if (!type_fits(structure->type, seen))
            return PLAIN_STRUCTURE;
        if (structure->type == TYPE_SEV && structure->id != SEV_ID)
            return PLAIN_FIELD;
        if (!registers_fit(structure, table->pages))
            return PLAIN_OUTSIDE;
    }
    if (length < TABLE_BYTES)
        return PLAIN_ROOM;
    memcpy(buffer, "ASPT", 4);
    put32(buffer + 4, TABLE_BYTES);
    buffer[8] = REVISION;
    buffer[9] = 0;
    memcpy(buffer + 10, table->oem, sizeof table->oem);
    memcpy(buffer + 16, table->oem_table, sizeof table->oem_table);
    put32(buffer + 24, table->oem_revision);
    put32(buffer + 28, table->creator);
    put32(buffer + 32, table->creator_revision);
    put64(buffer + 36, table->base);
    put32(buffer + 44, table->pages);
    put32(buffer + 48, STRUCTURES);
    for (int i = 0; i < STRUCTURES; i++)
        put_structure(buffer + STRUCTURES_AT + STRUCTURE_BYTES * i, &table->structures[i]);
    buffer[9] = (uint8_t)-sum_of(buffer);
    return PLAIN_OK;
}
