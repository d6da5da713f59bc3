/* A plain reading of document 01 in C, without proofs: what the proved library is measured against.
 *
 * It makes the same checks in the same order and answers the same numbers. Every call answers PLAIN_OK or the number of the
 * refusal; what it gives is written through its last pointer, and only where it is accepted. A lookup also writes how many entries
 * it tested with PLAIN_ABSENT. Behind it a call on a directory has `met`, where it writes in which header or entry the refusal was
 * met. One that was met in none writes nothing there, so that the caller clears it.
 */
#ifndef PLAIN_H
#define PLAIN_H

#include <stdbool.h>
#include <stddef.h>
#include <stdint.h>

enum plain_answer {
    PLAIN_OK = 0,
    PLAIN_SHORT = 1,
    PLAIN_SIGNATURE = 2,
    PLAIN_LIMITS = 3,
    PLAIN_CHECKSUM = 4,
    PLAIN_FIELD = 5,
    PLAIN_STRUCTURE = 6,
    PLAIN_OUTSIDE = 7,
    PLAIN_ABSENT = 8,
    PLAIN_RANGE = 9,
    PLAIN_OUTSTANDING = 10,
    PLAIN_NOT_YET = 11,
    PLAIN_ROOM = 12,
    PLAIN_WRITTEN = 13,
    PLAIN_MISPLACED = 14,
    PLAIN_IMAGE = 15,
    PLAIN_MODE = 16,
    PLAIN_VALUE = 17,
    PLAIN_REPEATED = 18
};

/* ---- Little-endian numbers; the caller has checked that the bytes are there ---- */

static inline uint16_t get16(const uint8_t *at)
{
    return (uint16_t)(at[0] | at[1] << 8);
}

static inline uint32_t get32(const uint8_t *at)
{
    return get16(at) | (uint32_t)get16(at + 2) << 16;
}

static inline uint64_t get64(const uint8_t *at)
{
    return get32(at) | (uint64_t)get32(at + 4) << 32;
}

static inline void put16(uint8_t *at, uint16_t value)
{
    at[0] = (uint8_t)value;
    at[1] = (uint8_t)(value >> 8);
}

static inline void put32(uint8_t *at, uint32_t value)
{
    put16(at, (uint16_t)value);
    put16(at + 2, (uint16_t)(value >> 16));
}

static inline void put64(uint8_t *at, uint64_t value)
{
    put32(at, (uint32_t)value);
    put32(at + 4, (uint32_t)(value >> 32));
}

/* ---- Flash images ---- */

struct plain_directory {
    uint64_t place;
    uint32_t level;
    uint32_t total;
};

struct plain_entry {
    uint8_t type;
    uint8_t subprogram;
    uint32_t size;
    uint64_t location;
    uint32_t mode;
};

struct plain_part {
    uint64_t place;
    uint64_t length;
};

/* An entry, and where its bytes lie: `answer` is PLAIN_OK, or the number that refuses the part, which then means nothing. */
struct plain_row {
    struct plain_entry entry;
    int answer;
    struct plain_part part;
};

/* A directory that the walk through an image enters, and the index of the entry of level one that led there: 0 for level one. */
struct plain_entered {
    struct plain_directory directory;
    uint64_t lead;
};

struct plain_match {
    uint64_t index;
    uint64_t tested;
};

struct plain_image_match {
    uint64_t place;
    uint32_t level;
    uint64_t index;
    uint64_t tested;
};

enum plain_met_in { PLAIN_MET_NOWHERE, PLAIN_MET_HEADER, PLAIN_MET_ENTRY };

/* Where a refusal was met: the directory's level, 0 where no cookie told it, the index of an entry, and where the directory begins. */
struct plain_met {
    uint32_t in;
    uint32_t level;
    uint64_t index;
    uint64_t directory;
};

uint32_t plain_checksum(const uint8_t *bytes, size_t length);

int plain_directory(const uint8_t *image, size_t length, uint32_t level, struct plain_directory *found, struct plain_met *met);
int plain_entry(const uint8_t *image, size_t length, uint32_t level, uint64_t index, struct plain_entry *entry,
                struct plain_met *met);
int plain_part(const uint8_t *image, size_t length, uint32_t level, uint64_t index, struct plain_part *part,
               struct plain_met *met);
int plain_find(const uint8_t *image, size_t length, uint32_t level, uint8_t type, uint8_t subprogram, struct plain_match *match,
               struct plain_met *met);
int plain_find_image(const uint8_t *image, size_t length, uint8_t type, uint8_t subprogram, struct plain_image_match *match,
                     struct plain_met *met);

/* An entry of a directory that plain_directory has found in the same image, and where its bytes lie. Nothing is checked again. */
int plain_entry_of(const uint8_t *image, const struct plain_directory *directory, uint64_t index, struct plain_entry *entry);
int plain_part_of(const uint8_t *image, size_t length, const struct plain_directory *directory, uint64_t index,
                  struct plain_part *part, struct plain_met *met);

/* The most entries of a directory, and the most directories of an image: level one, and one for each subprogram that a lead has. */
enum { PLAIN_MOST_ENTRIES = 512, PLAIN_MOST_DIRECTORIES = 257 };

/* Every entry of the directory at a place, of the level that its cookie says. `rows` has room for as many as there can be. */
int plain_view_entries(const uint8_t *image, size_t length, uint64_t place, struct plain_row *rows,
                       struct plain_directory *found, struct plain_met *met);

/* The same of a directory that was found in the same image. Nothing is checked again. */
void plain_entries_of(const uint8_t *image, size_t length, const struct plain_directory *directory, struct plain_row *rows);

/* Every directory that the walk through an image enters, in its order. `entered` has room for as many as there can be. */
int plain_directories(const uint8_t *image, size_t length, struct plain_entered *entered, uint32_t *count,
                      struct plain_met *met);

int plain_start(uint8_t *buffer, size_t length, uint32_t level);
int plain_extend(uint8_t *buffer, size_t length, const struct plain_entry *entry, uint32_t *total, struct plain_met *met);

/* ---- The AMD Secure Processor Table ---- */

struct plain_structure {
    uint16_t type;
    uint8_t id;
    uint32_t registers[3];
};

struct plain_aspt {
    uint8_t oem[6];
    uint8_t oem_table[8];
    uint32_t oem_revision;
    uint32_t creator;
    uint32_t creator_revision;
    uint64_t base;
    uint32_t pages;
    struct plain_structure structures[3];
};

int plain_aspt_read(const uint8_t *bytes, size_t length, struct plain_aspt *table);
int plain_aspt_write(uint8_t *buffer, size_t length, const struct plain_aspt *table);

/* ---- The GUID table ---- */

struct plain_guid_match {
    uint64_t place;
    uint64_t length;
    uint64_t tested;
};

int plain_guids(const uint8_t *image, size_t length, uint32_t *total, uint64_t *entries);
int plain_guid_find(const uint8_t *image, size_t length, const uint8_t guid[16], struct plain_guid_match *match);
int plain_guid_start(uint8_t *buffer, size_t length);
int plain_guid_extend(uint8_t *buffer, size_t length, const uint8_t guid[16], const uint8_t *data, size_t data_length,
                      uint32_t *total);

/* ---- The mailbox ---- */

enum { PLAIN_CALLERS = 8, PLAIN_IDS = 64 };

enum plain_phase { PLAIN_IDLE, PLAIN_COMMAND, PLAIN_RESPONSE };
enum plain_state { PLAIN_FREE, PLAIN_WAITING, PLAIN_READY };

struct plain_post {
    uint32_t caller;
    uint16_t command;
    uint16_t data;
};

struct plain_place {
    uint32_t state;
    uint32_t word;
};

struct plain_interrupt {
    uint16_t parts[3];
    bool saved;
    bool delivery;
};

struct plain_firmware {
    bool interface_on;
    bool held[3];
    uint16_t parts[3];
    struct plain_interrupt interrupts[PLAIN_IDS];
};

/* The first `count` posts of the line wait, the oldest first. The register's caller and word mean nothing while it is idle. */
struct plain_mailbox {
    uint32_t phase;
    uint32_t caller;
    uint32_t word;
    uint32_t count;
    struct plain_post line[PLAIN_CALLERS];
    struct plain_place places[PLAIN_CALLERS];
    struct plain_firmware firmware;
};

void plain_mailbox_fresh(struct plain_mailbox *mailbox);
int plain_post(struct plain_mailbox *mailbox, uint32_t caller, uint32_t command, uint16_t data);
int plain_load(struct plain_mailbox *mailbox, bool *acted);
int plain_turn(struct plain_mailbox *mailbox, bool *acted);
int plain_unload(struct plain_mailbox *mailbox, bool *acted);
int plain_take(struct plain_mailbox *mailbox, uint32_t caller, uint32_t *word);

#endif
