/* The proved library for callers in C: host/kpalumere.h, for target/staticlib/libkpalumere.a, a copy of what `rt lib` writes
 * in crates/kpalumere, which links into programs for x86-64 Linux.
 *
 * Every call has one shape. Lent slices and numbers go in; each slice is a pointer and a length, which counts elements.
 * The number of document 01 comes out: 0 where the call is accepted, else the number of the refusal. What an accepted call
 * gives, or what a refusal carries besides its number, is written to the first of the lent `words`; the words behind are
 * kept. Where the values do not fit into the lent words the answer is 12, and nothing is written.
 *
 * What a caller owes. The library is proved for callers that keep to these rules, and Rust's slices keep to them by
 * themselves. In C nobody checks them:
 *
 *   - A pointer is never null, also where its length is 0.
 *   - A pointer is aligned for its type: `uint64_t` to 8 bytes; a `uint8_t` may stand anywhere.
 *   - All elements that a length counts can be read, and be written where the pointer is not to `const`.
 *   - A slice that is written overlaps no other slice of the same call, and nobody else reads or writes it meanwhile.
 *   - A slice has fewer than 2^63 bytes.
 *
 * The library keeps nothing between calls and takes no memory of its own, so any thread may call it.
 */
#ifndef KPALUMERE_H
#define KPALUMERE_H

#include <stddef.h>
#include <stdint.h>

#ifdef __cplusplus
extern "C" {
#endif

/* ---- The version ----
 *
 * That of the project, which `kpalumere --version` prints too. What is compiled with this header is to be linked with the
 * archive of the same version.
 */

#define KPALUMERE_VERSION_MAJOR 0
#define KPALUMERE_VERSION_MINOR 2
#define KPALUMERE_VERSION_PATCH 0
#define KPALUMERE_VERSION "0.2.0"

/* ---- What a call answers, by name ----
 *
 * A name says what a number is about; what it means for a call stands with the call.
 */

enum {
    KPALUMERE_ACCEPTED = 0,
    KPALUMERE_SHORT = 1,        /* lent bytes too short */
    KPALUMERE_SIGNATURE = 2,    /* wrong signature, cookie or footer GUID, or no EFS */
    KPALUMERE_LIMITS = 3,       /* a length, total or count outside its limits */
    KPALUMERE_CHECKSUM = 4,     /* the checksum */
    KPALUMERE_FIELD = 5,        /* reserved bits set, or a field's value not allowed */
    KPALUMERE_STRUCTURE = 6,    /* a structure or GUID entry of wrong type or length */
    KPALUMERE_OUTSIDE = 7,      /* an address or register outside the image or space */
    KPALUMERE_ABSENT = 8,       /* no such entry, pointer or outstanding post */
    KPALUMERE_RANGE = 9,        /* a caller, command or level number out of range */
    KPALUMERE_OUTSTANDING = 10, /* the caller already has a post outstanding */
    KPALUMERE_EARLY = 11,       /* the answer is not there yet */
    KPALUMERE_ROOM = 12,        /* the lent buffer, or the lent words, have no room */
    KPALUMERE_WRITTEN = 13,     /* bytes to be written over are not zero */
    KPALUMERE_MISPLACED = 14,   /* type 0x40 in level two */
    KPALUMERE_IMAGE = 15,       /* the flash image is empty, or has more than 16,777,216 bytes */
    KPALUMERE_MODE = 16,        /* address mode 3 */
    KPALUMERE_VALUE = 17,       /* the entry holds a value */
    KPALUMERE_REPEATED = 18     /* an entry repeats an earlier type and subprogram */
};

/* ---- How many words a call is lent, by name ----
 *
 * With so many words lent no call is refused for want of words: KPALUMERE_EFS_WORDS for kpalumere_efs, and so on. A call that
 * is lent no words has no such name. Where a refusal may have a place, as told below, it is as many as that takes, though the call
 * may give fewer.
 */

enum {
    KPALUMERE_CHECKSUM_WORDS = 1,
    KPALUMERE_EFS_WORDS = 3,
    KPALUMERE_POINTER_WORDS = 3,
    KPALUMERE_DIRECTORY_WORDS = 4,
    KPALUMERE_REPEATED_WORDS = 4,
    KPALUMERE_ENTRY_WORDS = 5,
    KPALUMERE_PART_WORDS = 4,
    KPALUMERE_FIND_WORDS = 4,
    KPALUMERE_FIND_IMAGE_WORDS = 4,
    KPALUMERE_VERSION_WORDS = 1,
    KPALUMERE_ENTRY_VERSION_WORDS = 4,
    KPALUMERE_VIEW_WORDS = 4,
    KPALUMERE_VIEW_ENTRY_WORDS = 5,
    KPALUMERE_VIEW_PART_WORDS = 4,
    KPALUMERE_VIEW_VERSION_WORDS = 4,
    KPALUMERE_WRONG_WORDS = 5,
    KPALUMERE_EXTEND_WORDS = 4,
    KPALUMERE_ASPT_READ_WORDS = 22,
    KPALUMERE_ASPT_WRITE_WORDS = 22,
    KPALUMERE_GUIDS_WORDS = 2,
    KPALUMERE_GUID_FIND_WORDS = 3,
    KPALUMERE_GUID_ENTRY_WORDS = 4,
    KPALUMERE_GUID_EXTEND_WORDS = 1,

    /* kpalumere_view_entries: three words of the directory, then a row for each entry, of which there are at most 512. */
    KPALUMERE_HEAD_WORDS = 3,
    KPALUMERE_MOST_ENTRIES = 512,
    KPALUMERE_ROW_WORDS = 8,
    KPALUMERE_VIEW_ENTRIES_WORDS = KPALUMERE_HEAD_WORDS + KPALUMERE_ROW_WORDS * KPALUMERE_MOST_ENTRIES,

    /* kpalumere_directories: a word with their number, then four for each, of which there are at most 257: level one, and one
     * for each entry of type 0x40, since no two of these have the same of 256 subprograms. */
    KPALUMERE_MOST_DIRECTORIES = 257,
    KPALUMERE_ENTERED_WORDS = 4,
    KPALUMERE_DIRECTORIES_WORDS = 1 + KPALUMERE_ENTERED_WORDS * KPALUMERE_MOST_DIRECTORIES,

    /* The words of a mailbox, and the values that each of its calls is lent beside them; kpalumere_post gives none. */
    KPALUMERE_MAILBOX_WORDS = 88,
    KPALUMERE_MAILBOX_VALUES = 1
};

/* ---- Where a refusal was met ----
 *
 * What is met inside a directory has a place: the refusal leaves four words besides its number.
 *
 *   0  what it was met in: KPALUMERE_MET_HEADER, the directory's header, or KPALUMERE_MET_ENTRY, one of its entries
 *   1  the level of the directory, 0 where no cookie told it
 *   2  the index of the entry, 0 of a header
 *   3  the place where the directory begins
 *
 * Of a header these are 1, 2, 3, 4 and 5, and of an entry 5, 14 and 18, all of a directory that is not good; and of an entry that
 * is asked for its bytes, or that leads to level two, 17, 16 and 7. No other refusal has a place, and none but an 8 of a lookup
 * writes a word then: not 9, 12 and 15, not a 2 where there is no EFS or no mark, not a 7 of the EFS's pointer or of a place that
 * is lent, nor what refuses the new entry of an extend.
 *
 * So a caller who asks for the place sets words[0] to 0, lends KPALUMERE_PLACE_WORDS words at least, and looks at words[0] after
 * a refusal; an 8 leaves no place. With fewer words lent, "below 4 with a place" in what follows, such a refusal is a 12, which
 * has none. kpalumere_wrong tells what is wrong there.
 */

enum {
    KPALUMERE_PLACE_WORDS = 4,
    KPALUMERE_MET_HEADER = 1,
    KPALUMERE_MET_ENTRY = 2
};

/* ---- The checksum ---- */

/* The checksum of the lent bytes: Fletcher's 32-bit sum over 16-bit words, as document 01 takes it; a last odd byte has no
 * part in it. A directory holds the checksum of its bytes from 8 on in the four bytes at 4.
 *
 * Answers 0 and words[0] = the checksum; 12 where words_len is 0.
 */
uint64_t kpalumere_checksum(const uint8_t *bytes, size_t bytes_len, uint64_t *words, size_t words_len);

/* ---- The flash image ----
 *
 * `image` is a whole flash image, and places are offsets into it. Its last byte has the physical address 0xFFFFFFFF and its
 * first 2^32 - image_len, however long it is; any other address leads out of it. An EFS is looked for at the physical addresses
 * 0xFFFA0000, 0xFFF20000, 0xFFE20000, 0xFFC20000, 0xFF820000 and 0xFF020000, as far as the image has them: one of fewer than
 * 0x60000 bytes has no EFS. The EFS's pointer is a physical address where it is 2^32 - image_len or more, and a place where it
 * is below image_len; with any other value it leads out of the image.
 *
 * `level` is 1 or 2, any other is refused with 9. Each of these calls answers 15 for an image that is empty or has more than
 * 16,777,216 bytes; 2 where it has no EFS; 7 where the EFS's pointer, or the entry that leads to level two, leads out of it; 8
 * where there is no pointer or no such entry; 16 where that entry has address mode 3; and for a directory that is not good 1
 * (cut off), 2 (cookie), 3 (total), 4 (checksum), 5 (reserved bits), 14 (type 0x40 in level two) or 18 (an entry has the type
 * and subprogram of an earlier one of the same directory). A directory's refusals have a place, and so have the 7 and 16 of the
 * entry that leads to level two: that entry's, in level one. What a call answers besides stands with it.
 */

/* The EFS and its two directory pointers as they stand: the early one at 0x10, the late one at 0x14. It asks neither for a
 * pointer nor for a directory, so only 15 and 2 of the refusals above are answered.
 *
 * Answers 0 and words[0] = the EFS's place, words[1] = its early pointer, words[2] = its late pointer; 12 where words_len is
 * below 3.
 */
uint64_t kpalumere_efs(const uint8_t *image, size_t image_len, uint64_t *words, size_t words_len);

/* The directory pointer, and where it leads: the late one, or the early one where that is absent. It asks for no directory, so
 * only 15, 2, 8 (both are absent) and 7 of the refusals above are answered.
 *
 * Answers 0 and words[0] = the offset of its field in the EFS (0x10 or 0x14), words[1] = its value as it stands there,
 * words[2] = the place where it leads, which is where level one begins; 12 where words_len is below 3.
 */
uint64_t kpalumere_pointer(const uint8_t *image, size_t image_len, uint64_t *words, size_t words_len);

/* The directory of a level. No two of its entries have the same type and subprogram, else it is refused with 18.
 *
 * Answers 0 and words[0] = its place, words[1] = its level, words[2] = its total; 12 where words_len is below 3, or below 4 with
 * a place.
 */
uint64_t kpalumere_directory(const uint8_t *image, size_t image_len, uint32_t level, uint64_t *words, size_t words_len);

/* Of the directory of a level that is refused with 18, which entries are the same: the first that repeats an earlier one, and the
 * first before it that it repeats. Level two is reached through a good level one: where level one is refused with 18, so is this
 * call for level two.
 *
 * Answers 0 and words[0] = the index of the entry that repeats, words[1] = the index of the earlier one, words[2] = the type and
 * words[3] = the subprogram of both; 8 where the directory is good, too; 12 where words_len is below 4, also with a place.
 */
uint64_t kpalumere_repeated(const uint8_t *image, size_t image_len, uint32_t level, uint64_t *words, size_t words_len);

/* An entry of the directory of a level. The directory is refused, with 18 as with its other numbers, whichever entry is asked
 * for.
 *
 * Answers 0 and words[0] = its type, words[1] = its subprogram, words[2] = its size, words[3] = its location or value,
 * words[4] = its address mode (0 to 3); 8 where `index` is not below the total; 12 where words_len is below 5, or below 4 with a
 * place.
 */
uint64_t kpalumere_entry(const uint8_t *image, size_t image_len, uint32_t level, uint64_t index, uint64_t *words,
                         size_t words_len);

/* Where the bytes of an entry of the directory of a level lie, also where there are none of them. The directory is refused,
 * with 18 as with its other numbers, whichever entry is asked for.
 *
 * Answers 0 and words[0] = their place, words[1] = their length; 8 where `index` is not below the total; with the entry's place
 * 17 where it holds a value, 16 where its address mode is 3, 7 where the bytes do not lie in the image; 12 where words_len is
 * below 2, or below 4 with a place.
 */
uint64_t kpalumere_part(const uint8_t *image, size_t image_len, uint32_t level, uint64_t index, uint64_t *words,
                        size_t words_len);

/* The entry of a type and subprogram in the directory of a level. There is at most one: a directory that repeats any type and
 * subprogram is refused with 18, whichever is looked for.
 *
 * Answers 0 and words[0] = its index, words[1] = how many entries were tested; 8 and words[0] = how many entries were tested,
 * which is 0 where there is no such directory; 12 where words_len is below 2, or below 1 with an 8, or below 4 with a place.
 */
uint64_t kpalumere_find(const uint8_t *image, size_t image_len, uint32_t level, uint8_t type, uint8_t sub, uint64_t *words,
                        size_t words_len);

/* The first entry of a type and subprogram in the whole image: level one in order, and after each entry of type 0x40 that does
 * not match the level two to which it leads. The two levels may share a type and subprogram. The first fault that is met before
 * a match refuses the lookup, an 18 of a level two too.
 *
 * Answers 0 and words[0] = the place of the match's directory, words[1] = its level, words[2] = the match's index,
 * words[3] = how many entries were tested; 8 and words[0] = how many entries were tested; 12 where words_len is below 4, also
 * with a place, or below 1 with an 8. It is given no level, so 9 is never answered.
 */
uint64_t kpalumere_find_image(const uint8_t *image, size_t image_len, uint8_t type, uint8_t sub, uint64_t *words,
                              size_t words_len);

/* Every directory of an image: level one, then, for each of its entries of type 0x40 in order, the level two to which it
 * leads. Where two entries lead to one place, its directory is given twice. These are the directories that
 * kpalumere_find_image enters where nothing matches, in its order; kpalumere_directory gives of them level one and the first
 * of level two.
 *
 * The first fault refuses all of them: that of level one, or of the first entry of type 0x40 that leads to no good level two.
 * An image without a level two has one directory, so that 8 is answered only where the EFS has no pointer. It is given no
 * level, so 9 is never answered.
 *
 * Answers 0 and words[0] = how many directories there are, then four words for each: its place, its level, its total, and the
 * index of the entry of level one that led there, which is 0 for level one itself; 12 where words_len is below 1 + 4 * their
 * number, or below 4 with a place.
 */
uint64_t kpalumere_directories(const uint8_t *image, size_t image_len, uint64_t *words, size_t words_len);

/* ---- Firmware binaries ---- */

/* The firmware version in the 256-byte header that a firmware binary begins with: the four bytes at 0x60, a little-endian
 * number. People are shown its bytes from the highest on: 0x00080174 is 00.08.01.74. `bytes` are the binary's; those behind
 * the header have no part in it.
 *
 * Answers 0 and words[0] = the version; 1 where there are fewer than 256 bytes; 2 where the header's mark, "$PS1" at 0x10, is
 * not there; 12 where words_len is 0.
 */
uint64_t kpalumere_version(const uint8_t *bytes, size_t bytes_len, uint64_t *words, size_t words_len);

/* The same of the firmware binary that the bytes of an entry of the directory of a level are.
 *
 * Answers 0 and words[0] = the version; where the entry has no bytes the number and the place of kpalumere_part, which comes
 * first; then 1 where the bytes are fewer than 256, and 2 where they lack the mark, both without a place; 12 where words_len is
 * 0, or below 4 with a place.
 */
uint64_t kpalumere_entry_version(const uint8_t *image, size_t image_len, uint32_t level, uint64_t index, uint64_t *words,
                                 size_t words_len);

/* ---- Views ----
 *
 * A view of a checked directory is the image and the place where the directory begins. The directory is checked again at each
 * call, without the EFS; its level is that of its cookie. Where a refusal tells a level, that is 0 where the cookie is neither
 * (2), or there are fewer than the header's 16 bytes (1).
 */

/* The place that a view of the directory of a level holds.
 *
 * Answers 0 and words[0] = the place; 12 where words_len is 0, or below 4 with a place; else what kpalumere_directory answers, 18
 * among it.
 */
uint64_t kpalumere_view(const uint8_t *image, size_t image_len, uint32_t level, uint64_t *words, size_t words_len);

/* An entry, from a view that holds the image and the place.
 *
 * Answers 0 and five words as kpalumere_entry; 15 for an image that is empty or has more than 16,777,216 bytes; 7 where the
 * place lies beyond it; with a place 1, 2, 3, 4, 5, 14 or 18 for a directory that is not good; 8 where `index` is not below its
 * total; 12 where words_len is below 5, or below 4 with a place.
 */
uint64_t kpalumere_view_entry(const uint8_t *image, size_t image_len, size_t place, size_t index, uint64_t *words,
                              size_t words_len);

/* Where the bytes of an entry lie, from a view that holds the image and the place.
 *
 * Answers 0 and two words as kpalumere_part; the refusals of kpalumere_view_entry, 18 among them; with the entry's place 17 where
 * it holds a value, 16 where its address mode is 3, 7 where the bytes do not lie in the image; 12 where words_len is below 2, or
 * below 4 with a place.
 */
uint64_t kpalumere_view_part(const uint8_t *image, size_t image_len, size_t place, size_t index, uint64_t *words,
                             size_t words_len);

/* Every entry of the directory that a view holds, and where its bytes lie. The directory is checked once, and each row has
 * what kpalumere_view_entry and kpalumere_view_part answer for its index.
 *
 * Answers 0 and words[0] = the directory's place, words[1] = its level, words[2] = its total, then a row of eight words for
 * each entry, in order: its type, its subprogram, its size, its location or value, its address mode, then 0 and the place and
 * the length of its bytes, or the number that refuses them (17, 16 or 7) and 0 and 0: its place is that of the row. 15, 7, 1, 2,
 * 3, 4, 5, 14 or 18 as kpalumere_view_entry; 12 where words_len is below 3 + 8 * the total, or below 4 with a place.
 */
uint64_t kpalumere_view_entries(const uint8_t *image, size_t image_len, size_t place, uint64_t *words, size_t words_len);

/* The version of the firmware binary that the bytes of an entry are, from a view that holds the image and the place.
 *
 * Answers 0 and words[0] = the version; where the entry has no bytes the number and the place of kpalumere_view_part, which comes
 * first; then 1 where the bytes are fewer than 256, and 2 where they lack the mark, both without a place; 12 where words_len is
 * 0, or below 4 with a place.
 */
uint64_t kpalumere_view_version(const uint8_t *image, size_t image_len, size_t place, size_t index, uint64_t *words,
                                size_t words_len);

/* ---- What is wrong at a place ---- */

/* Of the place that a refusal left: which field is wrong, what stands there and what should. `place`, `level` and `index` are
 * words[3], words[1] and words[2] of that refusal, and `image` is what the refused call was lent, an extend's buffer too. The
 * directory there is checked again, of level 0 as its cookie names it; where it is good, the location of its entry `index` is.
 *
 * Answers 0 and words[0] = the number of the refusal, words[1] = where in the image the field begins, words[2] = its bytes,
 * words[3] = what stands there, words[4] = what should:
 *
 *   1   the header, or the entries behind it: how many bytes there are, and how many there should be
 *   2   the cookie there, and that of the level; of level 0 that of level one
 *   3   the total, and the largest, 512
 *   4   the checksum there, and that of the bytes
 *   5   the header's reserved bytes, or the entry's flags; and 0
 *   14  the type, and the level where it may stand, 1
 *   18  the type, and the index of the first entry that has it with the same subprogram
 *   17  the type, and the type that is a value, 0x0B
 *   16  of the location's eight bytes the address mode, 3; and the highest, 2
 *   7   of the same bytes the location; and the image's length, where the entry's bytes end at the latest
 *
 * Refused, always without a place: 9 where the level is above 2; then 15 for an image that is empty or has more than 16,777,216
 * bytes; 7 where `place` lies beyond it; 8 where nothing is wrong there, or the good directory has no entry `index`; 12 where
 * words_len is below 5.
 */
uint64_t kpalumere_wrong(const uint8_t *image, size_t image_len, size_t place, uint32_t level, size_t index, uint64_t *words,
                         size_t words_len);

/* ---- Writing a directory ----
 *
 * A directory is written at a buffer's start. A buffer may be of any length. What is refused changes no byte of it.
 */

/* Writes an empty directory of a level, 16 bytes, and nothing else.
 *
 * Answers 0; 9 where the level is not 1 or 2; 12 where buf_len is below 16.
 */
uint64_t kpalumere_start(uint8_t *buf, size_t buf_len, uint32_t level);

/* Adds an entry to the good directory at the buffer's start. The entry, the total and the checksum are written, and every other
 * byte is kept.
 *
 * Answers 0 and words[0] = the new total; with a place, which counts from the buffer's start, 1, 2, 3, 4, 5, 14 or 18 for a
 * directory that is not good; then, without one, 5 where the location is not below 2^62 or the mode is above 3; 14 for type 0x40
 * in level two; 18 where an entry of the directory has the type and subprogram; 3 where the total is 512 already; 12 where the
 * buffer has no room for 16 bytes more. Also 12 where words_len is 0, or below 4 with a place.
 */
uint64_t kpalumere_extend(uint8_t *buf, size_t buf_len, uint8_t type, uint8_t sub, uint32_t size, uint64_t location,
                          uint32_t mode, uint64_t *words, size_t words_len);

/* ---- The AMD Secure Processor Table ----
 *
 * A table crosses the boundary as 22 words:
 *
 *   0        the OEM ID: its six bytes as a number from the lowest on
 *   1        the OEM table ID: its eight bytes as a number from the lowest on
 *   2, 3, 4  OEM revision, creator ID, creator revision
 *   5, 6     the base address of the registers, and the number of pages of 4,096 bytes
 *   7 to 11  the first structure: type, ID byte, and three register offsets in the order of the source's table
 *   12 to 16 and 17 to 21  the second and the third structure
 *
 * A field that a structure's type lacks is no part of it: its word is read as 0, and written it is not looked at. Type 2 has the
 * first register alone, and no type but 1 has an ID byte.
 */

/* Reads the table in the first 112 bytes; more are ignored.
 *
 * Answers 0 and 22 words; 1 where fewer than 112 bytes are lent; 2 (signature), 3 (length, or number of structures),
 * 5 (revision, base address, reserved bytes, type 1's ID byte), 4 (checksum), 6 (length or type of a structure) or 7 (register
 * outside its space); 12 where words_len is below 22.
 */
uint64_t kpalumere_aspt_read(const uint8_t *bytes, size_t bytes_len, uint64_t *words, size_t words_len);

/* Writes the table of 22 words over the buffer's first 112 bytes, and keeps the bytes behind. The words are only read.
 *
 * Answers 0; 1 where words_len is below 22; 5 where a word is wider than its field, of those before the structures and of the ID
 * bytes and registers that the structures' types have; then 5 (base address, type 1's ID byte), 6 (type of a structure; a word
 * wider than a type's field is no type) or 7 (register outside its space); 12 where buf_len is below 112. What is refused
 * changes no byte.
 */
uint64_t kpalumere_aspt_write(uint8_t *buf, size_t buf_len, const uint64_t *words, size_t words_len);

/* ---- The GUID table ----
 *
 * The table ends 32 bytes before the end of a guest firmware image. A GUID is given as two numbers: its sixteen bytes in
 * memory are those of `low` and then those of `high`, the lowest first. All is checked at each call: 1 for an image of fewer
 * than 50 bytes, 2 for the footer, 3 for the total, 6 for an entry.
 */

/* The table.
 *
 * Answers 0 and words[0] = its total in bytes, words[1] = how many entries it has; 1, 2, 3 or 6; 12 where words_len is below 2.
 */
uint64_t kpalumere_guids(const uint8_t *image, size_t image_len, uint64_t *words, size_t words_len);

/* The entry nearest the footer that has a GUID.
 *
 * Answers 0 and words[0] = the place of its data, words[1] = the length of its data, words[2] = how many entries were tested;
 * 1, 2, 3 or 6; 8 and words[0] = how many entries were tested; 12 where words_len is below 3, or below 1 with an 8.
 */
uint64_t kpalumere_guid_find(const uint8_t *image, size_t image_len, uint64_t low, uint64_t high, uint64_t *words,
                             size_t words_len);

/* The entry at an index, counted from the footer.
 *
 * Answers 0 and words[0] and words[1] = the halves of its GUID, words[2] = the place of its data, words[3] = the length of its
 * data; 1, 2, 3 or 6; 8 where `index` is not below the number of entries; 12 where words_len is below 4.
 */
uint64_t kpalumere_guid_entry(const uint8_t *image, size_t image_len, size_t index, uint64_t *words, size_t words_len);

/* Writes a table with no entries: its total and its footer, and nothing else.
 *
 * Answers 0; 12 where buf_len is below 50.
 */
uint64_t kpalumere_guid_start(uint8_t *buf, size_t buf_len);

/* Adds an entry to a good table, farthest from the footer. The entry and the total are written, and every other byte is kept.
 *
 * Answers 0 and words[0] = the new total; 1, 2, 3 or 6 for a table that is not good; then 3 where the new total is above
 * 65,535; 12 where the image has no room for it; 13 where the bytes to be used are not all zero; 12 where words_len is 0. What
 * is refused changes no byte.
 */
uint64_t kpalumere_guid_extend(uint8_t *buf, size_t buf_len, uint64_t low, uint64_t high, const uint8_t *data, size_t data_len,
                               uint64_t *words, size_t words_len);

/* ---- The mailbox ----
 *
 * A mailbox, with the firmware behind it, is 88 words that the caller keeps between the calls; words behind these are kept:
 *
 *   0         the register: 0 idle, 1 a command, 2 a response
 *   1, 2      the register's caller and its word, both 0 where it is idle
 *   3         how many posts are in the line
 *   4         the interface: 1 on, 0 off
 *   5, 6, 7   the parts 1 to 3: 0 for none, 2^16 + its value for one that is held
 *   8 to 15   the line, the oldest post first: caller in bits 63:32, command in 31:16, data in 15:0
 *   16 to 23  the places of callers 0 to 7: 0 free, 2^32 waiting, 2 * 2^32 + w for the word w
 *   24 to 87  the IDs 0 to 63: bit 0 a descriptor is saved, bit 1 delivery is on, its parts 1, 2, 3 in bits 31:16, 47:32, 63:48
 *
 * Words that are no mailbox's, or a mailbox's that breaks the rules, answer 5, first of all. What a call gives goes to the
 * lent `values`. What is refused changes neither words nor values.
 */

/* Writes a fresh mailbox with fresh firmware.
 *
 * Answers 0; 12 where words_len is below 88.
 */
uint64_t kpalumere_mailbox_fresh(uint64_t *words, size_t words_len);

/* A caller's command with its data joins the line.
 *
 * Answers 0, and no values; 5; 9 where the caller is above 7 or the command above 0x3FF; 10 where the caller has a post that is
 * not taken.
 */
uint64_t kpalumere_post(uint64_t *words, size_t words_len, uint64_t *values, size_t values_len, uint32_t caller,
                        uint32_t command, uint16_t data);

/* The oldest post enters an idle register.
 *
 * Answers 0 and values[0] = 1 where it did, 0 where it did not; 5; 12 where values_len is 0.
 */
uint64_t kpalumere_load(uint64_t *words, size_t words_len, uint64_t *values, size_t values_len);

/* A command in the register becomes its response.
 *
 * Answers 0 and values[0] = 1 where it did, 0 where it did not; 5; 12 where values_len is 0.
 */
uint64_t kpalumere_turn(uint64_t *words, size_t words_len, uint64_t *values, size_t values_len);

/* A response goes to its caller's place.
 *
 * Answers 0 and values[0] = 1 where it did, 0 where it did not; 5; 12 where values_len is 0.
 */
uint64_t kpalumere_unload(uint64_t *words, size_t words_len, uint64_t *values, size_t values_len);

/* A caller takes its word, and its place is free.
 *
 * Answers 0 and values[0] = the word; 5; 9 where the caller is above 7; 8 where it has no post that is not taken; 11 where the
 * word is not there yet; 12 where values_len is 0.
 */
uint64_t kpalumere_take(uint64_t *words, size_t words_len, uint64_t *values, size_t values_len, uint32_t caller);

#ifdef __cplusplus
}
#endif

#endif
