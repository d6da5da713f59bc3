/* A caller in C: holds the archive to values of document 01 through the header alone. With a file's name it writes one of its boards
 * there in place of that, for the program of docs/LIBRARY.md. */
#include "../kpalumere.h"

#include <inttypes.h>
#include <stdio.h>
#include <stdlib.h>
#include <string.h>

/* What lent words hold that no call is to write. */
static const uint64_t untouched = UINT64_C(0xA5A5A5A5A5A5A5A5);

static int failures = 0;

static void expect(const char *what, uint64_t expected, uint64_t found)
{
    if (expected != found) {
        failures++;
        printf("%s: expected 0x%" PRIx64 ", found 0x%" PRIx64 "\n", what, expected, found);
    }
}

/* The words are these, and those behind them are kept. */
static void expect_words(const char *what, const uint64_t *expected, size_t count, const uint64_t *words, size_t all)
{
    for (size_t i = 0; i < all; i++) {
        char which[80];

        snprintf(which, sizeof which, "%s, word %u", what, (unsigned)i);
        expect(which, i < count ? expected[i] : untouched, words[i]);
    }
}

/* Fills words with what no call of these checks writes. */
static void fill_words(uint64_t *words, size_t count)
{
    for (size_t i = 0; i < count; i++)
        words[i] = untouched;
}

static void check_checksum(void)
{
    /* From byte 8 on: of an empty directory, and of one with an entry of type 1, size 0x100, at 0x1000 in mode 1. */
    static const uint8_t empty[8] = {0};
    static const uint8_t one_entry[24] = {1, 0, 0, 0, 0, 0, 0, 0, 1, 0, 0, 0, 0, 1, 0, 0, 0, 0x10, 0, 0, 0, 0, 0, 0x40};
    uint64_t words[2] = {5, 6};

    expect("an empty directory is accepted", 0, kpalumere_checksum(empty, sizeof empty, words, 2));
    expect("value M1", 0xFFFFFFFF, words[0]);
    expect("the word behind is kept", 6, words[1]);
    expect("one entry is accepted", 0, kpalumere_checksum(one_entry, sizeof one_entry, words, 1));
    expect("value M2", 0x86145102, words[0]);
    expect("no room is refused", 12, kpalumere_checksum(empty, sizeof empty, words, 0));
    expect("nothing is written then", 0x86145102, words[0]);
    expect("no bytes are accepted", 0, kpalumere_checksum(empty, 0, words, 1));
}

/* A directory of level one with the entry of value M2: type 1, size 0x100, at 0x1000 in mode 1. */
static const uint8_t one_entry_directory[32] = {'$', 'P', 'S', 'P', 0x02, 0x51, 0x14, 0x86, 1, 0, 0, 0, 0, 0, 0, 0,
                                                1,   0,   0,   0,   0,    1,    0,    0,    0, 0x10, 0, 0, 0, 0, 0, 0x40};

/* A board's length, and where its EFS is: there the image has the physical address 0xFFFA0000, since it ends at 2^32. */
enum { BOARD_BYTES = 0x80000, EFS_PLACE = 0x20000 };

/* An image with an EFS whose pointer leads to that directory, at 0x200. */
static const uint8_t *board(size_t *length)
{
    static uint8_t image[BOARD_BYTES];
    static const uint8_t signature[4] = {0xAA, 0x55, 0xAA, 0x55};

    memcpy(image + EFS_PLACE, signature, sizeof signature);
    image[EFS_PLACE + 0x15] = 2;
    memcpy(image + 0x200, one_entry_directory, sizeof one_entry_directory);
    *length = sizeof image;
    return image;
}

static void check_flash(void)
{
    size_t length;
    const uint8_t *image = board(&length);
    uint64_t words[6] = {0, 0, 0, 0, 0, 7};

    expect("the EFS is found", 0, kpalumere_efs(image, length, words, 3));
    expect("its place", EFS_PLACE, words[0]);
    expect("its early pointer", 0, words[1]);
    expect("its late pointer", 0x200, words[2]);
    expect("in an image without its last byte it is elsewhere", 2, kpalumere_efs(image, length - 1, words, 3));
    expect("the pointer is found", 0, kpalumere_pointer(image, length, words, 3));
    expect("its field", 0x14, words[0]);
    expect("its value", 0x200, words[1]);
    expect("where it leads", 0x200, words[2]);
    expect("no room is refused", 12, kpalumere_pointer(image, length, words, 2));
    expect("a directory is found", 0, kpalumere_directory(image, length, 1, words, 3));
    expect("its place", 0x200, words[0]);
    expect("its level", 1, words[1]);
    expect("its total", 1, words[2]);
    expect("there is no level two", 8, kpalumere_directory(image, length, 2, words, 3));
    expect("there is no level three", 9, kpalumere_directory(image, length, 3, words, 3));
    expect("an entry is given", 0, kpalumere_entry(image, length, 1, 0, words, 6));
    expect("its type", 1, words[0]);
    expect("its size", 0x100, words[2]);
    expect("its location", 0x1000, words[3]);
    expect("its mode", 1, words[4]);
    expect("the word behind is kept", 7, words[5]);
    expect("an index is 64 bits wide", 8, kpalumere_entry(image, length, 1, UINT64_C(1) << 32, words, 6));
    expect("a part is given", 0, kpalumere_part(image, length, 1, 0, words, 2));
    expect("its place", 0x1000, words[0]);
    expect("its length", 0x100, words[1]);
    expect("a lookup finds", 0, kpalumere_find(image, length, 1, 1, 0, words, 2));
    expect("the first entry", 0, words[0]);
    expect("after one test", 1, words[1]);
    expect("a lookup finds nothing", 8, kpalumere_find(image, length, 1, 1, 2, words, 2));
    expect("after one test", 1, words[0]);
    expect("the whole image is searched", 0, kpalumere_find_image(image, length, 1, 0, words, 4));
    expect("the place of the match's directory", 0x200, words[0]);
    expect("no room is refused", 12, kpalumere_find_image(image, length, 1, 0, words, 3));
}

/* The answer to the pointer of a board whose late pointer is changed. */
static uint64_t answer_to_pointer(uint32_t late, uint64_t *words)
{
    static uint8_t image[BOARD_BYTES];
    size_t length;

    memcpy(image, board(&length), sizeof image);
    for (int i = 0; i < 4; i++)
        image[EFS_PLACE + 0x14 + i] = (uint8_t)(late >> 8 * i);
    return kpalumere_pointer(image, length, words, 3);
}

/* The flash ends at 2^32, so in a board of 0x80000 bytes the physical addresses begin at 0xFFF80000. */
static void check_window(void)
{
    size_t length;
    const uint8_t *image = board(&length);
    uint64_t words[3] = {0, 0, 7};

    expect("the shortest image with an EFS", 0, kpalumere_efs(image + EFS_PLACE, 0x60000, words, 3));
    expect("has it at its start", 0, words[0]);
    expect("a shorter one has none", 2, kpalumere_efs(image + EFS_PLACE + 1, 0x5FFFF, words, 3));
    expect("a physical pointer", 0, answer_to_pointer(0xFFF80200, words));
    expect("leads to its byte", 0x200, words[2]);
    expect("the first physical address", 0, answer_to_pointer(0xFFF80000, words));
    expect("leads to the first byte", 0, words[2]);
    expect("one less leads out of the image", 7, answer_to_pointer(0xFFF7FFFF, words));
    expect("the last place", 0, answer_to_pointer(BOARD_BYTES - 1, words));
    expect("is that of the last byte", BOARD_BYTES - 1, words[2]);
    expect("one more leads out of the image", 7, answer_to_pointer(BOARD_BYTES, words));
    expect("so does an address that 16 MiB would have", 7, answer_to_pointer(0xFF000200, words));
}

/* Puts a directory of level one, with two entries of type 1 and the same subprogram, at 0x200 of a copy of the board. */
static const uint8_t *board_that_repeats(size_t *length)
{
    static uint8_t image[BOARD_BYTES];
    uint8_t *directory = image + 0x200;
    uint64_t sum[1] = {0};
    const uint8_t *good = board(length);

    memcpy(image, good, sizeof image);
    memcpy(directory + 32, directory + 16, 16);
    directory[8] = 2;
    /* Size and location have no part in a repeat. */
    directory[32 + 4] = 7;
    directory[32 + 8] = 9;
    expect("a checksum for the two", 0, kpalumere_checksum(directory + 8, 40, sum, 1));
    for (int i = 0; i < 4; i++)
        directory[4 + i] = (uint8_t)(sum[0] >> 8 * i);
    return image;
}

/* A call on a directory with a fault that has a place. It is refused with 12 where three words are lent, and keeps them; with one
 * more it answers the number and leaves the place, and keeps the words behind. The other arguments come before the words. */
#define EXPECT_PLACE(number, met, level, index, directory, call, ...)                                  \
    do {                                                                                                \
        const uint64_t place_[] = {met, level, index, directory};                                      \
        uint64_t lent_[KPALUMERE_PLACE_WORDS + 2];                                                     \
                                                                                                        \
        fill_words(lent_, KPALUMERE_PLACE_WORDS + 2);                                                  \
        expect(#call " with three words", KPALUMERE_ROOM, call(__VA_ARGS__, lent_, 3));                \
        expect(#call " with none", KPALUMERE_ROOM, call(__VA_ARGS__, lent_, 0));                       \
        expect_words(#call " without room for a place", place_, 0, lent_, KPALUMERE_PLACE_WORDS + 2);  \
        expect(#call " with words for a place", number, call(__VA_ARGS__, lent_, KPALUMERE_PLACE_WORDS)); \
        expect_words(#call " with a place", place_, 4, lent_, KPALUMERE_PLACE_WORDS + 2);              \
    } while (0)

static void check_repeated(void)
{
    size_t length;
    const uint8_t *image = board_that_repeats(&length);
    const uint8_t *good = board(&length);
    uint64_t words[5] = {1, 2, 3, 4, 5};
    static const uint64_t kept[5] = {1, 2, 3, 4, 5};

    /* The second entry of level one repeats the first. Level two is behind it. */
    EXPECT_PLACE(18, KPALUMERE_MET_ENTRY, 1, 1, 0x200, kpalumere_directory, image, length, 1);
    EXPECT_PLACE(18, KPALUMERE_MET_ENTRY, 1, 1, 0x200, kpalumere_directory, image, length, 2);
    EXPECT_PLACE(18, KPALUMERE_MET_ENTRY, 1, 1, 0x200, kpalumere_directories, image, length);
    EXPECT_PLACE(18, KPALUMERE_MET_ENTRY, 1, 1, 0x200, kpalumere_repeated, image, length, 2);
    EXPECT_PLACE(18, KPALUMERE_MET_ENTRY, 1, 1, 0x200, kpalumere_entry, image, length, 1, 0);
    EXPECT_PLACE(18, KPALUMERE_MET_ENTRY, 1, 1, 0x200, kpalumere_part, image, length, 1, 0);
    EXPECT_PLACE(18, KPALUMERE_MET_ENTRY, 1, 1, 0x200, kpalumere_find, image, length, 1, 3, 0);
    EXPECT_PLACE(18, KPALUMERE_MET_ENTRY, 1, 1, 0x200, kpalumere_find_image, image, length, 1, 0);
    EXPECT_PLACE(18, KPALUMERE_MET_ENTRY, 1, 1, 0x200, kpalumere_entry_version, image, length, 1, 0);
    EXPECT_PLACE(18, KPALUMERE_MET_ENTRY, 1, 1, 0x200, kpalumere_view, image, length, 1);
    EXPECT_PLACE(18, KPALUMERE_MET_ENTRY, 1, 1, 0x200, kpalumere_view_entry, image, length, 0x200, 0);
    EXPECT_PLACE(18, KPALUMERE_MET_ENTRY, 1, 1, 0x200, kpalumere_view_part, image, length, 0x200, 0);
    EXPECT_PLACE(18, KPALUMERE_MET_ENTRY, 1, 1, 0x200, kpalumere_view_entries, image, length, 0x200);
    EXPECT_PLACE(18, KPALUMERE_MET_ENTRY, 1, 1, 0x200, kpalumere_view_version, image, length, 0x200, 0);
    expect("no room for the entries that repeat", 12, kpalumere_repeated(image, length, 1, words, 3));
    expect("there is no level three", 9, kpalumere_repeated(image, length, 3, words, 4));
    expect("a good directory repeats nothing", 8, kpalumere_repeated(good, length, 1, words, 4));
    expect("the words are kept", 0, (uint64_t)(memcmp(words, kept, sizeof kept) != 0));
    expect("the entries that repeat are named", 0, kpalumere_repeated(image, length, 1, words, 5));
    expect("the one that repeats", 1, words[0]);
    expect("the earlier one", 0, words[1]);
    expect("the type of both", 1, words[2]);
    expect("the subprogram of both", 0, words[3]);
    expect("the word behind is kept", 5, words[4]);
}

/* A board whose level one, at 0x200, leads to a level two at 0x300 and to one at 0x400. It has six entries: with bytes, and of each
 * kind that has none. The library writes the directories itself. */
static const uint8_t *board_of_two_leads(size_t *length)
{
    static uint8_t image[BOARD_BYTES];
    uint8_t *one = image + 0x200, *first = image + 0x300, *second = image + 0x400;
    uint64_t total[1] = {0};

    memcpy(image, board(length), sizeof image);
    expect("level one is started", 0, kpalumere_start(one, 0x100, 1));
    kpalumere_extend(one, 0x100, 0x01, 0, 0x100, 0x1000, 1, total, 1);
    kpalumere_extend(one, 0x100, 0x0B, 0, 0, 0x1234, 0, total, 1);
    kpalumere_extend(one, 0x100, 0x40, 7, 0, 0x300, 1, total, 1);
    kpalumere_extend(one, 0x100, 0x02, 0, 1, BOARD_BYTES, 1, total, 1);
    kpalumere_extend(one, 0x100, 0x03, 5, 2, 3, 3, total, 1);
    kpalumere_extend(one, 0x100, 0x40, 8, 0, 0x200, 2, total, 1);
    expect("level one has six entries", 6, total[0]);
    expect("a level two is started", 0, kpalumere_start(first, 0x100, 2));
    expect("and another", 0, kpalumere_start(second, 0x100, 2));
    kpalumere_extend(second, 0x100, 0x05, 6, 0, 0, 2, total, 1);
    expect("which has one entry", 1, total[0]);
    return image;
}

static void check_view_entries(void)
{
    /* Three words of the directory, and a row for each of its six entries. */
    static const uint64_t listed[KPALUMERE_HEAD_WORDS + 6 * KPALUMERE_ROW_WORDS] = {
        0x200, 1,  6,
        0x01,  0,  0x100, 0x1000,      1, KPALUMERE_ACCEPTED, 0x1000, 0x100,
        0x0B,  0,  0,     0x1234,      0, KPALUMERE_VALUE,    0,      0,
        0x40,  7,  0,     0x300,       1, KPALUMERE_ACCEPTED, 0x300,  0,
        0x02,  0,  1,     BOARD_BYTES, 1, KPALUMERE_OUTSIDE,  0,      0,
        0x03,  5,  2,     3,           3, KPALUMERE_MODE,     0,      0,
        0x40,  8,  0,     0x200,       2, KPALUMERE_ACCEPTED, 0x400,  0};
    enum { LISTED = sizeof listed / sizeof listed[0] };
    static uint64_t words[KPALUMERE_VIEW_ENTRIES_WORDS];
    size_t length;
    const uint8_t *image = board_of_two_leads(&length);

    EXPECT_PLACE(KPALUMERE_SHORT, KPALUMERE_MET_HEADER, 0, 0, length - 15, kpalumere_view_entries, image, length, length - 15);
    EXPECT_PLACE(KPALUMERE_SIGNATURE, KPALUMERE_MET_HEADER, 0, 0, 0x201, kpalumere_view_entries, image, length, 0x201);
    fill_words(words, KPALUMERE_VIEW_ENTRIES_WORDS);
    expect("no image", KPALUMERE_IMAGE, kpalumere_view_entries(image, 0, 0, words, KPALUMERE_VIEW_ENTRIES_WORDS));
    expect("a place beyond the image", KPALUMERE_OUTSIDE,
           kpalumere_view_entries(image, length, SIZE_MAX, words, KPALUMERE_VIEW_ENTRIES_WORDS));
    expect("a word too few", KPALUMERE_ROOM, kpalumere_view_entries(image, length, 0x200, words, LISTED - 1));
    expect("no words", KPALUMERE_ROOM, kpalumere_view_entries(image, length, 0x200, words, 0));
    expect_words("nothing is written", listed, 0, words, KPALUMERE_VIEW_ENTRIES_WORDS);
    expect("as many words as are written", KPALUMERE_ACCEPTED, kpalumere_view_entries(image, length, 0x200, words, LISTED));
    expect_words("every entry", listed, LISTED, words, KPALUMERE_VIEW_ENTRIES_WORDS);
    fill_words(words, KPALUMERE_VIEW_ENTRIES_WORDS);
    expect("more words than that", KPALUMERE_ACCEPTED,
           kpalumere_view_entries(image, length, 0x200, words, KPALUMERE_VIEW_ENTRIES_WORDS));
    expect_words("every entry", listed, LISTED, words, KPALUMERE_VIEW_ENTRIES_WORDS);
}

static void check_directories(void)
{
    /* Their number, and four words for each: the entries 2 and 5 of level one lead. */
    static const uint64_t listed[1 + 3 * KPALUMERE_ENTERED_WORDS] = {3, 0x200, 1, 6, 0, 0x300, 2, 0, 2, 0x400, 2, 1, 5};
    static const uint64_t alone[1 + KPALUMERE_ENTERED_WORDS] = {1, 0x200, 1, 1, 0};
    enum { LISTED = sizeof listed / sizeof listed[0], ALONE = sizeof alone / sizeof alone[0] };
    static uint8_t damaged[BOARD_BYTES];
    static uint64_t words[KPALUMERE_DIRECTORIES_WORDS];
    size_t length;
    const uint8_t *image = board_of_two_leads(&length);

    memcpy(damaged, image, length);
    damaged[0x404] ^= 1;
    fill_words(words, KPALUMERE_DIRECTORIES_WORDS);
    expect("no image", KPALUMERE_IMAGE, kpalumere_directories(image, 0, words, KPALUMERE_DIRECTORIES_WORDS));
    expect("no EFS", KPALUMERE_SIGNATURE, kpalumere_directories(image, 1, words, KPALUMERE_DIRECTORIES_WORDS));
    EXPECT_PLACE(KPALUMERE_CHECKSUM, KPALUMERE_MET_HEADER, 2, 0, 0x400, kpalumere_directories, damaged, length);
    expect("a fault behind the second lead is none of the first", KPALUMERE_ACCEPTED,
           kpalumere_directory(damaged, length, 2, words, KPALUMERE_DIRECTORY_WORDS));
    fill_words(words, KPALUMERE_DIRECTORY_WORDS);
    expect("a word too few", KPALUMERE_ROOM, kpalumere_directories(image, length, words, LISTED - 1));
    expect("no words", KPALUMERE_ROOM, kpalumere_directories(image, length, words, 0));
    expect_words("nothing is written", listed, 0, words, KPALUMERE_DIRECTORIES_WORDS);
    expect("as many words as are written", KPALUMERE_ACCEPTED, kpalumere_directories(image, length, words, LISTED));
    expect_words("every directory", listed, LISTED, words, KPALUMERE_DIRECTORIES_WORDS);
    fill_words(words, KPALUMERE_DIRECTORIES_WORDS);
    image = board(&length);
    expect("level one alone", KPALUMERE_ACCEPTED, kpalumere_directories(image, length, words, KPALUMERE_DIRECTORIES_WORDS));
    expect_words("one directory", alone, ALONE, words, KPALUMERE_DIRECTORIES_WORDS);
}

/* Places in a header, in an entry's location, and in a buffer that is extended; and refusals that have none. */
static void check_places(void)
{
    static uint8_t damaged[BOARD_BYTES];
    size_t length;
    const uint8_t *image = board_of_two_leads(&length);
    uint64_t words[5];

    memcpy(damaged, image, length);
    damaged[0x304] ^= 1;
    EXPECT_PLACE(KPALUMERE_CHECKSUM, KPALUMERE_MET_HEADER, 2, 0, 0x300, kpalumere_directory, damaged, length, 2);
    EXPECT_PLACE(KPALUMERE_CHECKSUM, KPALUMERE_MET_HEADER, 2, 0, 0x300, kpalumere_find, damaged, length, 2, 9, 9);
    EXPECT_PLACE(KPALUMERE_CHECKSUM, KPALUMERE_MET_HEADER, 2, 0, 0x300, kpalumere_find_image, damaged, length, 9, 9);
    EXPECT_PLACE(KPALUMERE_CHECKSUM, KPALUMERE_MET_HEADER, 2, 0, 0x300, kpalumere_view_entry, damaged, length, 0x300, 0);
    EXPECT_PLACE(KPALUMERE_CHECKSUM, KPALUMERE_MET_HEADER, 2, 0, 0, kpalumere_extend, damaged + 0x300, 0x100, 1, 0, 0, 0, 1);
    EXPECT_PLACE(KPALUMERE_SIGNATURE, KPALUMERE_MET_HEADER, 0, 0, 0, kpalumere_extend, damaged + 0x301, 0x100, 1, 0, 0, 0, 1);
    EXPECT_PLACE(KPALUMERE_SHORT, KPALUMERE_MET_HEADER, 0, 0, 0, kpalumere_extend, damaged + 0x300, 15, 1, 0, 0, 0, 1);

    EXPECT_PLACE(KPALUMERE_VALUE, KPALUMERE_MET_ENTRY, 1, 1, 0x200, kpalumere_part, image, length, 1, 1);
    EXPECT_PLACE(KPALUMERE_OUTSIDE, KPALUMERE_MET_ENTRY, 1, 3, 0x200, kpalumere_view_part, image, length, 0x200, 3);
    EXPECT_PLACE(KPALUMERE_MODE, KPALUMERE_MET_ENTRY, 1, 4, 0x200, kpalumere_entry_version, image, length, 1, 4);
    EXPECT_PLACE(KPALUMERE_MODE, KPALUMERE_MET_ENTRY, 1, 4, 0x200, kpalumere_view_version, image, length, 0x200, 4);

    fill_words(words, 5);
    expect("no image", KPALUMERE_IMAGE, kpalumere_directory(image, 0, 1, words, 5));
    expect("no image and no words", KPALUMERE_IMAGE, kpalumere_directory(image, 0, 1, words, 0));
    expect("no EFS", KPALUMERE_SIGNATURE, kpalumere_find(image, 1, 1, 1, 0, words, 5));
    expect("no such entry", KPALUMERE_ABSENT, kpalumere_part(image, length, 1, 6, words, 5));
    expect("a place beyond the image", KPALUMERE_OUTSIDE, kpalumere_view_entry(image, length, length + 1, 0, words, 5));
    expect("bytes too few for a version", KPALUMERE_SHORT, kpalumere_entry_version(image, length, 1, 2, words, 5));
    expect("a mode for the new entry", KPALUMERE_FIELD, kpalumere_extend(damaged + 0x400, 0x100, 1, 0, 0, 0, 4, words, 5));
    expect_words("nothing is written", words, 0, words, 5);
}

/* What is wrong at a place is told in these words, those behind are kept, and with a word fewer it is refused. */
static void expect_wrong(const char *what, const uint8_t *image, size_t length, const uint64_t *place, const uint64_t *told)
{
    uint64_t words[KPALUMERE_WRONG_WORDS + 1];

    fill_words(words, KPALUMERE_WRONG_WORDS + 1);
    expect(what, KPALUMERE_ROOM,
           kpalumere_wrong(image, length, (size_t)place[3], (uint32_t)place[1], (size_t)place[2], words, KPALUMERE_WRONG_WORDS - 1));
    expect_words(what, told, 0, words, KPALUMERE_WRONG_WORDS + 1);
    expect(what, KPALUMERE_ACCEPTED,
           kpalumere_wrong(image, length, (size_t)place[3], (uint32_t)place[1], (size_t)place[2], words, KPALUMERE_WRONG_WORDS));
    expect_words(what, told, KPALUMERE_WRONG_WORDS, words, KPALUMERE_WRONG_WORDS + 1);
}

static void check_wrong(void)
{
    static const uint64_t repeated[] = {KPALUMERE_REPEATED, 0x220, 1, 1, 0};
    static const uint64_t outside[] = {KPALUMERE_OUTSIDE, 0x240 + 8, 8, BOARD_BYTES, BOARD_BYTES};
    static const uint64_t mode[] = {KPALUMERE_MODE, 0x250 + 8, 8, 3, 2};
    static const uint64_t cookie[] = {KPALUMERE_SIGNATURE, 0x201, 4, 0xFF505350, 0x50535024};
    static const uint64_t checksum[] = {KPALUMERE_CHECKSUM, 0x204, 4, 0, 0x86145102};
    static uint8_t damaged[BOARD_BYTES];
    size_t length;
    const uint8_t *image = board_that_repeats(&length);
    uint64_t place[KPALUMERE_PLACE_WORDS] = {0}, words[6];

    expect("a directory that repeats", KPALUMERE_REPEATED, kpalumere_directory(image, length, 1, place, KPALUMERE_PLACE_WORDS));
    expect_wrong("the entry that repeats", image, length, place, repeated);

    memcpy(damaged, board(&length), length);
    memset(damaged + 0x204, 0, 4);
    expect("a checksum that is wrong", KPALUMERE_CHECKSUM, kpalumere_view(damaged, length, 1, place, KPALUMERE_PLACE_WORDS));
    expect_wrong("the checksum", damaged, length, place, checksum);
    damaged[0x204] = 0xFF;
    expect("no cookie", KPALUMERE_SIGNATURE, kpalumere_view_entry(damaged, length, 0x201, 0, place, KPALUMERE_PLACE_WORDS));
    expect_wrong("the cookie", damaged, length, place, cookie);

    image = board_of_two_leads(&length);
    expect("bytes outside", KPALUMERE_OUTSIDE, kpalumere_part(image, length, 1, 3, place, KPALUMERE_PLACE_WORDS));
    expect_wrong("the location", image, length, place, outside);
    expect("mode 3", KPALUMERE_MODE, kpalumere_view_part(image, length, 0x200, 4, place, KPALUMERE_PLACE_WORDS));
    expect_wrong("the mode", image, length, place, mode);

    fill_words(words, 6);
    expect("no image", KPALUMERE_IMAGE, kpalumere_wrong(image, 0, 0x200, 1, 3, words, 6));
    expect("a place beyond the image", KPALUMERE_OUTSIDE, kpalumere_wrong(image, length, length + 1, 1, 3, words, 6));
    expect("a place is 64 bits wide", KPALUMERE_OUTSIDE, kpalumere_wrong(image, length, SIZE_MAX, 1, 3, words, 6));
    expect("there is no level three", KPALUMERE_RANGE, kpalumere_wrong(image, length, 0x200, 3, 3, words, 6));
    expect("the level comes first", KPALUMERE_RANGE, kpalumere_wrong(image, 0, length + 1, 3, 3, words, 6));
    expect("nothing is wrong in an entry", KPALUMERE_ABSENT, kpalumere_wrong(image, length, 0x200, 1, 0, words, 6));
    expect("there is no such entry", KPALUMERE_ABSENT, kpalumere_wrong(image, length, 0x200, 1, 6, words, 6));
    expect("an index is 64 bits wide", KPALUMERE_ABSENT, kpalumere_wrong(image, length, 0x200, 1, SIZE_MAX, words, 0));
    expect_words("nothing is written", words, 0, words, 6);
}

static void check_version(void)
{
    static const uint8_t version[4] = {0x74, 0x01, 0x08, 0x00};
    uint8_t binary[256] = {0};
    uint64_t words[1] = {0};

    expect("a binary without the mark is refused", 2, kpalumere_version(binary, sizeof binary, words, 1));
    memcpy(binary + 0x10, "$PS1", 4);
    memcpy(binary + 0x60, version, sizeof version);
    expect("a version is given", 0, kpalumere_version(binary, sizeof binary, words, 1));
    expect("the source's example", 0x00080174, words[0]);
    expect("a header cut off is refused", 1, kpalumere_version(binary, 255, words, 1));
    expect("no room is refused", 12, kpalumere_version(binary, sizeof binary, words, 0));
}

/* The version of the board's one entry, whose bytes lie at 0x1000 and get the mark and a version here. */
static void check_entry_version(void)
{
    static const uint8_t version[4] = {0x74, 0x01, 0x08, 0x00};
    size_t length;
    const uint8_t *good = board(&length);
    uint8_t *image = malloc(length);
    uint64_t words[2] = {7, 8};

    if (image == NULL) {
        expect("there is memory for an image", 0, 1);
        return;
    }
    memcpy(image, good, length);
    memset(image + 0x1000, 0, 0x100);
    expect("bytes without the mark have no version", 2, kpalumere_entry_version(image, length, 1, 0, words, 2));
    expect("nor by a view", 2, kpalumere_view_version(image, length, 0x200, 0, words, 2));
    memcpy(image + 0x1010, "$PS1", 4);
    memcpy(image + 0x1060, version, sizeof version);
    expect("no entry has no version", 8, kpalumere_entry_version(image, length, 1, 1, words, 2));
    expect("nor by a view", 8, kpalumere_view_version(image, length, 0x200, 1, words, 2));
    expect("there is no level three", 9, kpalumere_entry_version(image, length, 3, 0, words, 2));
    expect("a place is 64 bits wide", 7, kpalumere_view_version(image, length, SIZE_MAX, 0, words, 2));
    expect("no room for the version", 12, kpalumere_entry_version(image, length, 1, 0, words, 0));
    expect("nor by a view", 12, kpalumere_view_version(image, length, 0x200, 0, words, 0));
    expect("the words are kept", 0, (uint64_t)(words[0] != 7 || words[1] != 8));
    expect("an entry has a version", 0, kpalumere_entry_version(image, length, 1, 0, words, 2));
    expect("that of its bytes", 0x00080174, words[0]);
    words[0] = 7;
    expect("it has by a view", 0, kpalumere_view_version(image, length, 0x200, 0, words, 2));
    expect("the same", 0x00080174, words[0]);
    expect("the word behind is kept", 8, words[1]);
    free(image);
}

static void check_view(void)
{
    size_t length;
    const uint8_t *image = board(&length);
    uint64_t words[5] = {0};

    expect("a view is given", 0, kpalumere_view(image, length, 1, words, 1));
    expect("its place", 0x200, words[0]);
    expect("it gives an entry", 0, kpalumere_view_entry(image, length, 0x200, 0, words, 5));
    expect("of that location", 0x1000, words[3]);
    expect("it gives a part", 0, kpalumere_view_part(image, length, 0x200, 0, words, 2));
    expect("of that length", 0x100, words[1]);
    expect("a place is 64 bits wide", 7, kpalumere_view_part(image, length, SIZE_MAX, 0, words, 2));
}

static void check_build(void)
{
    uint8_t buffer[40], before[40];
    uint64_t words[1] = {0};

    memset(buffer, 0xEE, sizeof buffer);
    expect("a directory is started", 0, kpalumere_start(buffer, sizeof buffer, 1));
    expect("it is extended", 0, kpalumere_extend(buffer, sizeof buffer, 1, 0, 0x100, 0x1000, 1, words, 1));
    expect("its total", 1, words[0]);
    expect("its bytes", 0, (uint64_t)(memcmp(buffer, one_entry_directory, 32) != 0));
    expect("the byte behind is kept", 0xEE, buffer[32]);
    memcpy(before, buffer, sizeof buffer);
    expect("no room is refused", 12, kpalumere_extend(buffer, sizeof buffer, 1, 1, 0x100, 0x1000, 1, words, 1));
    expect("mode 4 is refused", 5, kpalumere_extend(buffer, sizeof buffer, 1, 0, 0x100, 0x1000, 4, words, 1));
    expect("a repeat is refused before the room", 18, kpalumere_extend(buffer, sizeof buffer, 1, 0, 2, 3, 2, words, 1));
    expect("every byte is kept", 0, (uint64_t)(memcmp(buffer, before, sizeof buffer) != 0));
    expect("the total is kept", 1, words[0]);
}

/* The same where there is room, so that nothing but the repeat stands against the entry. */
static void check_build_repeated(void)
{
    uint8_t buffer[64], before[64];
    uint64_t words[1] = {0};

    memset(buffer, 0xEE, sizeof buffer);
    memcpy(buffer, one_entry_directory, sizeof one_entry_directory);
    memcpy(before, buffer, sizeof buffer);
    expect("a repeat is refused", 18, kpalumere_extend(buffer, sizeof buffer, 1, 0, 2, 3, 2, words, 1));
    expect("every byte is kept", 0, (uint64_t)(memcmp(buffer, before, sizeof buffer) != 0));
    expect("no word is written", 0, words[0]);
    expect("another subprogram is no repeat", 0, kpalumere_extend(buffer, sizeof buffer, 1, 1, 2, 3, 2, words, 1));
    expect("another type is none", 0, kpalumere_extend(buffer, sizeof buffer, 0, 1, 2, 3, 2, words, 1));
    expect("the total", 3, words[0]);
}

/* OEM ID, OEM table ID, revisions and creator, base, pages; structures of types 2, 0 and 1. */
static const uint64_t aspt_table[22] = {UINT64_C(0x464544434241), UINT64_C(0x4E4D4C4B4A494847), 1, 2, 3, 0xFED00000, 1,
                                   2, 0, 0xFFC, 0, 0, 0, 0, 0x10, 0x14, 0x18, 1, 1, 0x20, 0x24, 0x28};

/* Writes the table with a word in another's place: the number is this, and what is refused changes no byte. */
static void expect_written_with(size_t at, uint64_t word, uint64_t number)
{
    uint64_t words[22];
    uint8_t buffer[112], before[112];
    char what[80];

    memcpy(words, aspt_table, sizeof aspt_table);
    words[at] = word;
    memset(buffer, 0xEE, sizeof buffer);
    memcpy(before, buffer, sizeof buffer);
    snprintf(what, sizeof what, "the table with 0x%" PRIx64 " as word %u", word, (unsigned)at);
    expect(what, number, kpalumere_aspt_write(buffer, sizeof buffer, words, 22));
    expect("a byte is changed where it is accepted", number == 0, memcmp(buffer, before, sizeof buffer) != 0);
}

/* Words that their fields cannot hold, for every word of the table. */
static void check_wide_words(void)
{
    static const uint64_t wide = UINT64_C(1) << 32;
    uint64_t words[22];
    uint8_t buffer[112], plain[112];
    size_t at;

    /* Before the structures: 48 bits for the OEM ID, 64 for the OEM table ID and the base address, else 32. */
    expect_written_with(0, (UINT64_C(1) << 48) - 1, 0);
    expect_written_with(0, UINT64_C(1) << 48, 5);
    expect_written_with(1, UINT64_MAX, 0);
    for (at = 2; at <= 4; at++) {
        expect_written_with(at, wide - 1, 0);
        expect_written_with(at, wide, 5);
    }
    expect_written_with(5, UINT64_MAX - 0xFFF, 0);
    expect_written_with(6, wide - 1, 0);
    expect_written_with(6, wide, 5);
    expect_written_with(6, wide + 1, 5);

    /* A type that its field cannot hold is none, whatever its lower bits are. */
    for (at = 7; at < 22; at += 5) {
        expect_written_with(at, 0x10000 + aspt_table[at], 6);
        expect_written_with(at, wide + aspt_table[at], 6);
        expect_written_with(at, 0xFFFF, 6);
    }

    /* The ID byte: in types 2 and 0 no part of the structure. */
    expect_written_with(8, 0x100, 0);
    expect_written_with(13, 0x100, 0);
    expect_written_with(18, 0x100, 5);
    expect_written_with(18, 0x101, 5);

    /* The registers: type 2 has the first alone. */
    expect_written_with(9, wide, 5);
    expect_written_with(10, wide, 0);
    expect_written_with(11, wide, 0);
    for (at = 14; at <= 16; at++) {
        expect_written_with(at, wide, 5);
        expect_written_with(at + 5, wide, 5);
    }

    /* Words that are not looked at are not written either. */
    memcpy(words, aspt_table, sizeof aspt_table);
    memset(plain, 0, sizeof plain);
    memset(buffer, 0, sizeof buffer);
    expect("the table is written", 0, kpalumere_aspt_write(plain, sizeof plain, words, 22));
    words[8] = words[10] = words[11] = words[13] = UINT64_MAX;
    expect("so it is with words that its types lack", 0, kpalumere_aspt_write(buffer, sizeof buffer, words, 22));
    expect("as the same bytes", 0, memcmp(buffer, plain, sizeof buffer) != 0);

    /* A structure of a type that there is not has no field: its type alone is looked at, and in its place. */
    for (at = 7; at < 22; at += 5) {
        memcpy(words, aspt_table, sizeof aspt_table);
        words[at] = 3;
        words[at + 1] = words[at + 2] = words[at + 3] = words[at + 4] = UINT64_MAX;
        expect("a type that there is not", 6, kpalumere_aspt_write(buffer, sizeof buffer, words, 22));
        words[at] = UINT64_MAX;
        expect("a type that its field cannot hold", 6, kpalumere_aspt_write(buffer, 0, words, 22));
        words[5] = 1;
        expect("the base address comes before it", 5, kpalumere_aspt_write(buffer, sizeof buffer, words, 22));
        words[5] = aspt_table[5];
        words[6] = wide;
        expect("and so do words that are too wide", 5, kpalumere_aspt_write(buffer, sizeof buffer, words, 22));
        expect("but not before their number", 1, kpalumere_aspt_write(buffer, sizeof buffer, words, 21));
    }
    memcpy(words, aspt_table, sizeof aspt_table);
    words[7] = 3;
    words[19] = wide;
    expect("words that are too wide come before a type", 5, kpalumere_aspt_write(buffer, sizeof buffer, words, 22));

    /* In a space of 8 GiB a register of 32 bits cannot be outside, and one of 33 has no field. */
    memcpy(words, aspt_table, sizeof aspt_table);
    words[6] = 0x200000;
    words[9] = wide - 1;
    expect("a register at the end of its field", 0, kpalumere_aspt_write(buffer, sizeof buffer, words, 22));
    words[9] = wide;
    expect("a register behind it", 5, kpalumere_aspt_write(buffer, sizeof buffer, words, 22));
}

static void check_aspt(void)
{
    uint8_t buffer[113];
    uint64_t words[22] = {0};

    memset(buffer, 0xEE, sizeof buffer);
    expect("a table is written", 0, kpalumere_aspt_write(buffer, sizeof buffer, aspt_table, 22));
    expect("its signature", 0, (uint64_t)(memcmp(buffer, "ASPT", 4) != 0));
    expect("its OEM IDs", 0, (uint64_t)(memcmp(buffer + 10, "ABCDEFGHIJKLMN", 14) != 0));
    expect("the byte behind is kept", 0xEE, buffer[112]);
    expect("it is read back", 0, kpalumere_aspt_read(buffer, sizeof buffer, words, 22));
    expect("as it was", 0, (uint64_t)(memcmp(words, aspt_table, sizeof aspt_table) != 0));
    expect("no room is refused", 12, kpalumere_aspt_write(buffer, 111, aspt_table, 22));
    expect("too few words are refused", 1, kpalumere_aspt_write(buffer, sizeof buffer, aspt_table, 21));
    buffer[20] ^= 1;
    expect("damage is refused", 4, kpalumere_aspt_read(buffer, sizeof buffer, words, 22));
}

static void check_guids(void)
{
    static const uint8_t data[3] = {1, 2, 3};
    uint8_t buffer[100] = {0};
    uint64_t words[4] = {0};

    expect("a table is started", 0, kpalumere_guid_start(buffer, sizeof buffer));
    expect("value M9", 0, kpalumere_guids(buffer, sizeof buffer, words, 2));
    expect("its total", 18, words[0]);
    expect("its entries", 0, words[1]);
    expect("it is extended", 0, kpalumere_guid_extend(buffer, sizeof buffer, 5, 6, data, sizeof data, words, 1));
    expect("its total", 39, words[0]);
    expect("a GUID is found", 0, kpalumere_guid_find(buffer, sizeof buffer, 5, 6, words, 3));
    expect("its data's place", 29, words[0]);
    expect("its data's length", 3, words[1]);
    expect("another is not", 8, kpalumere_guid_find(buffer, sizeof buffer, 6, 5, words, 3));
    expect("after one test", 1, words[0]);
    expect("an entry is given", 0, kpalumere_guid_entry(buffer, sizeof buffer, 0, words, 4));
    expect("the low half of its GUID", 5, words[0]);
    expect("the high half", 6, words[1]);
    buffer[50] = 17;
    expect("value M10", 3, kpalumere_guids(buffer, sizeof buffer, words, 2));
}

/* A call that has a fixed number of words to write is accepted with so many, and with one fewer it is refused. The other arguments
 * come before the words. */
#define EXPECT_COUNT(call, count, ...)                                                                    \
    do {                                                                                                  \
        expect(#call " with " #count, KPALUMERE_ACCEPTED, call(__VA_ARGS__, words, count));              \
        expect(#call " with one fewer", KPALUMERE_ROOM, call(__VA_ARGS__, words, count - 1));            \
    } while (0)

/* The same of a call that gives fewer words than a place takes: its count by name is that of a place. */
#define EXPECT_FEWER(call, given, name, ...)                                                              \
    do {                                                                                                  \
        EXPECT_COUNT(call, given, __VA_ARGS__);                                                           \
        expect(#name, KPALUMERE_PLACE_WORDS, name);                                                       \
    } while (0)

/* The counts that the header has by name. */
static void check_counts(void)
{
    static uint8_t image[BOARD_BYTES];
    size_t length, repeats_length;
    const uint8_t *repeats = board_that_repeats(&repeats_length);
    uint8_t table[112], guest[100] = {0};
    uint64_t words[KPALUMERE_ASPT_READ_WORDS] = {0};

    memcpy(image, board_of_two_leads(&length), sizeof image);
    memset(image + 0x1000, 0, 0x100);
    memcpy(image + 0x1010, "$PS1", 4);
    EXPECT_COUNT(kpalumere_checksum, KPALUMERE_CHECKSUM_WORDS, image, length);
    EXPECT_COUNT(kpalumere_efs, KPALUMERE_EFS_WORDS, image, length);
    EXPECT_COUNT(kpalumere_pointer, KPALUMERE_POINTER_WORDS, image, length);
    EXPECT_FEWER(kpalumere_directory, 3, KPALUMERE_DIRECTORY_WORDS, image, length, 1);
    EXPECT_COUNT(kpalumere_repeated, KPALUMERE_REPEATED_WORDS, repeats, repeats_length, 1);
    EXPECT_COUNT(kpalumere_entry, KPALUMERE_ENTRY_WORDS, image, length, 1, 0);
    EXPECT_FEWER(kpalumere_part, 2, KPALUMERE_PART_WORDS, image, length, 1, 0);
    EXPECT_FEWER(kpalumere_find, 2, KPALUMERE_FIND_WORDS, image, length, 1, 1, 0);
    EXPECT_COUNT(kpalumere_find_image, KPALUMERE_FIND_IMAGE_WORDS, image, length, 1, 0);
    EXPECT_COUNT(kpalumere_version, KPALUMERE_VERSION_WORDS, image + 0x1000, 0x100);
    EXPECT_FEWER(kpalumere_entry_version, 1, KPALUMERE_ENTRY_VERSION_WORDS, image, length, 1, 0);
    EXPECT_FEWER(kpalumere_view, 1, KPALUMERE_VIEW_WORDS, image, length, 1);
    EXPECT_COUNT(kpalumere_view_entry, KPALUMERE_VIEW_ENTRY_WORDS, image, length, 0x200, 0);
    EXPECT_FEWER(kpalumere_view_part, 2, KPALUMERE_VIEW_PART_WORDS, image, length, 0x200, 0);
    EXPECT_FEWER(kpalumere_view_version, 1, KPALUMERE_VIEW_VERSION_WORDS, image, length, 0x200, 0);
    EXPECT_COUNT(kpalumere_wrong, KPALUMERE_WRONG_WORDS, image, length, 0x200, 1, 3);
    expect("a table is written", KPALUMERE_ACCEPTED,
           kpalumere_aspt_write(table, sizeof table, aspt_table, KPALUMERE_ASPT_WRITE_WORDS));
    expect("but not of a word fewer", KPALUMERE_SHORT,
           kpalumere_aspt_write(table, sizeof table, aspt_table, KPALUMERE_ASPT_WRITE_WORDS - 1));
    EXPECT_COUNT(kpalumere_aspt_read, KPALUMERE_ASPT_READ_WORDS, table, sizeof table);
    expect("a GUID table is started", KPALUMERE_ACCEPTED, kpalumere_guid_start(guest, sizeof guest));
    expect("no word for its total", KPALUMERE_ROOM,
           kpalumere_guid_extend(guest, sizeof guest, 5, 6, table, 1, words, KPALUMERE_GUID_EXTEND_WORDS - 1));
    expect("a word for its total", KPALUMERE_ACCEPTED,
           kpalumere_guid_extend(guest, sizeof guest, 5, 6, table, 1, words, KPALUMERE_GUID_EXTEND_WORDS));
    EXPECT_COUNT(kpalumere_guids, KPALUMERE_GUIDS_WORDS, guest, sizeof guest);
    EXPECT_COUNT(kpalumere_guid_find, KPALUMERE_GUID_FIND_WORDS, guest, sizeof guest, 5, 6);
    EXPECT_COUNT(kpalumere_guid_entry, KPALUMERE_GUID_ENTRY_WORDS, guest, sizeof guest, 0);
    expect("no word for a directory's total", KPALUMERE_ROOM,
           kpalumere_extend(image + 0x300, 0x100, 1, 0, 0, 0, 1, words, 0));
    expect("a word for a directory's total", KPALUMERE_ACCEPTED,
           kpalumere_extend(image + 0x300, 0x100, 1, 0, 0, 0, 1, words, 1));
    expect("KPALUMERE_EXTEND_WORDS", KPALUMERE_PLACE_WORDS, KPALUMERE_EXTEND_WORDS);
}

static void check_mailbox(void)
{
    uint64_t words[KPALUMERE_MAILBOX_WORDS + 1] = {0};
    uint64_t values[KPALUMERE_MAILBOX_VALUES] = {0};

    words[KPALUMERE_MAILBOX_WORDS] = 7;
    expect("a word too few", KPALUMERE_ROOM, kpalumere_mailbox_fresh(words, KPALUMERE_MAILBOX_WORDS - 1));
    expect("a fresh mailbox", 0, kpalumere_mailbox_fresh(words, KPALUMERE_MAILBOX_WORDS + 1));
    expect("the word behind is kept", 7, words[KPALUMERE_MAILBOX_WORDS]);
    expect("a post is accepted", 0, kpalumere_post(words, 89, values, 0, 5, 0x81, 0));
    expect("another of its caller is not", 10, kpalumere_post(words, 89, values, 0, 5, 0x81, 0));
    expect("a command above 0x3FF is not", 9, kpalumere_post(words, 89, values, 0, 6, 0x400, 0));
    expect("no value for whether it acts", KPALUMERE_ROOM, kpalumere_load(words, 89, values, KPALUMERE_MAILBOX_VALUES - 1));
    expect("a load", 0, kpalumere_load(words, 89, values, KPALUMERE_MAILBOX_VALUES));
    expect("acts", 1, values[0]);
    expect("its word is not there yet", 11, kpalumere_take(words, 89, values, 1, 5));
    expect("a turn", 0, kpalumere_turn(words, 89, values, 1));
    expect("an unload", 0, kpalumere_unload(words, 89, values, 1));
    expect("a take", 0, kpalumere_take(words, 89, values, 1, 5));
    expect("value M3", 0x80810001, values[0]);
    expect("a load", 0, kpalumere_load(words, 89, values, 1));
    expect("has nothing to do", 0, values[0]);
    words[3] = 9;
    expect("words that break the rules are refused", 5, kpalumere_load(words, 89, values, 1));
    expect("too few are no mailbox", 5, kpalumere_load(words, 87, values, 1));
}

/* Writes the board with two leads into a file. */
static int write_board(const char *name)
{
    size_t length;
    const uint8_t *image = board_of_two_leads(&length);
    FILE *file = fopen(name, "wb");

    if (file == NULL || fwrite(image, 1, length, file) != length || fclose(file) != 0) {
        perror(name);
        return 1;
    }
    return failures != 0;
}

int main(int argc, char **argv)
{
    if (argc == 2)
        return write_board(argv[1]);
    check_checksum();
    check_flash();
    check_window();
    check_repeated();
    check_version();
    check_entry_version();
    check_view();
    check_view_entries();
    check_directories();
    check_places();
    check_wrong();
    check_counts();
    check_build();
    check_build_repeated();
    check_aspt();
    check_wide_words();
    check_guids();
    check_mailbox();
    puts(failures == 0 ? "a caller in C sees the values of document 01" : "a caller in C sees other values");
    return failures != 0;
}
