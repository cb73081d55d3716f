/* Every call from C: done, refused in each way, with empty slices whose pointer is NULL, and on a thread with a small stack. */
#include "../include/lamporchid.h"

#include <pthread.h>
#include <stdio.h>
#include <stdlib.h>
#include <string.h>

static unsigned passed, failed;

static void expect(const char *what, uint64_t word, unsigned number, unsigned small, uint64_t large)
{
    uint64_t wanted = number + ((uint64_t)small << 8) + (large << 16);
    if (word == wanted) {
        passed++;
    } else {
        failed++;
        printf("FAILED %s: %s, word %llx, wanted %llx\n", what, lamporchid_words(word), (unsigned long long)word, (unsigned long long)wanted);
    }
}

static void expect_true(const char *what, int holds)
{
    if (holds) {
        passed++;
    } else {
        failed++;
        printf("FAILED %s\n", what);
    }
}

static const uint8_t A[] = "a", B[] = "b", SLASH[] = "a/b";

/* The four-block card of the layout's cases, in the order of docs/LAYOUT.md (C1 to C12). */
static void small_card(void)
{
    enum { LENGTH = 343 };
    uint8_t card[LENGTH], before[LENGTH], tray[64], data[65];
    memset(card, 0xa5, LENGTH);
    memset(data, 7, sizeof data);

    expect("a card that was never formatted", lamporchid_check(card, LENGTH), LAMPORCHID_DAMAGED, 2, 0);
    expect("a card too short", lamporchid_check(card, 86), LAMPORCHID_DAMAGED, 1, 0);
    memcpy(before, card, LENGTH);
    expect("a length of no card", lamporchid_format(card, 342, 6), LAMPORCHID_BAD_SHAPE, 0, 0);
    expect("a block size of no card", lamporchid_format(card, LENGTH, 5), LAMPORCHID_BAD_SHAPE, 0, 0);
    expect("262 is not 6", lamporchid_format(card, LENGTH, 262), LAMPORCHID_BAD_SHAPE, 0, 0);
    expect_true("a refused format leaves the bytes", memcmp(card, before, LENGTH) == 0);

    expect("format", lamporchid_format(card, LENGTH, 6), LAMPORCHID_DONE, 0, 0);
    expect_true("the new card's first bytes", memcmp(card, "\x59\x41\x4b\x31\x01\x57", 7) == 0);
    expect("check", lamporchid_check(card, LENGTH), LAMPORCHID_DONE, 0, 0);
    expect("three blocks are free", lamporchid_room(card, LENGTH), LAMPORCHID_DONE, 0, 3);
    expect("not known yet", lamporchid_size(card, LENGTH, A, 1), LAMPORCHID_NOT_KNOWN, 0, 0);
    expect("create", lamporchid_create(card, LENGTH, A, 1), LAMPORCHID_DONE, 0, 0);
    expect("two blocks are free", lamporchid_room(card, LENGTH), LAMPORCHID_DONE, 0, 2);

    memcpy(before, card, LENGTH);
    expect("known already", lamporchid_create(card, LENGTH, A, 1), LAMPORCHID_ALREADY_KNOWN, 0, 0);
    expect("a slash", lamporchid_create(card, LENGTH, SLASH, 3), LAMPORCHID_BAD_NAME, 0, 0);
    expect("65 bytes find no room", lamporchid_write(card, LENGTH, A, 1, 0, data, 65), LAMPORCHID_NO_ROOM, 0, 0);
    expect_true("refusals leave the card", memcmp(card, before, LENGTH) == 0);

    expect("64 bytes do", lamporchid_write(card, LENGTH, A, 1, 0, data, 64), LAMPORCHID_DONE, 0, 64);
    expect("one block is free", lamporchid_room(card, LENGTH), LAMPORCHID_DONE, 0, 1);
    expect("one byte more does not", lamporchid_write(card, LENGTH, A, 1, 64, data, 1), LAMPORCHID_NO_ROOM, 0, 0);
    expect("a place past the end", lamporchid_write(card, LENGTH, A, 1, 65, data, 1), LAMPORCHID_PAST_THE_END, 0, 0);
    expect("no room for a second name", lamporchid_create(card, LENGTH, B, 1), LAMPORCHID_NO_ROOM, 0, 0);
    expect("size", lamporchid_size(card, LENGTH, A, 1), LAMPORCHID_DONE, 0, 64);

    memset(tray, 1, sizeof tray);
    expect("read from 60 on", lamporchid_read(card, LENGTH, A, 1, 60, tray, sizeof tray), LAMPORCHID_DONE, 0, 4);
    expect_true("four bytes, and the tray's rest", tray[0] == 7 && tray[3] == 7 && tray[4] == 1 && tray[63] == 1);
    expect("read at the size", lamporchid_read(card, LENGTH, A, 1, 64, tray, sizeof tray), LAMPORCHID_DONE, 0, 0);
    expect("read past it", lamporchid_read(card, LENGTH, A, 1, 65, tray, sizeof tray), LAMPORCHID_PAST_THE_END, 0, 0);
    expect("read what is not there", lamporchid_read(card, LENGTH, B, 1, 0, tray, sizeof tray), LAMPORCHID_NOT_KNOWN, 0, 0);

    memset(tray, 1, sizeof tray);
    expect("list", lamporchid_list(card, LENGTH, 0, tray, sizeof tray), LAMPORCHID_DONE, 1, 64);
    expect_true("its name, and the tray's rest", tray[0] == 'a' && tray[1] == 1);
    expect("a tray too short", lamporchid_list(card, LENGTH, 0, tray, 63), LAMPORCHID_SHORT_TRAY, 0, 0);
    expect("no second entry", lamporchid_list(card, LENGTH, 1, tray, 63), LAMPORCHID_PAST_THE_END, 0, 0);

    expect("truncate past the end", lamporchid_truncate(card, LENGTH, A, 1, 65), LAMPORCHID_PAST_THE_END, 0, 0);
    expect("truncate", lamporchid_truncate(card, LENGTH, A, 1, 3), LAMPORCHID_DONE, 0, 0);
    expect("its size then", lamporchid_size(card, LENGTH, A, 1), LAMPORCHID_DONE, 0, 3);
    expect("delete what is not there", lamporchid_delete(card, LENGTH, B, 1), LAMPORCHID_NOT_KNOWN, 0, 0);
    expect("delete", lamporchid_delete(card, LENGTH, A, 1), LAMPORCHID_DONE, 0, 0);
    expect("three blocks are free again", lamporchid_room(card, LENGTH), LAMPORCHID_DONE, 0, 3);
    expect("and the card is sound", lamporchid_check(card, LENGTH), LAMPORCHID_DONE, 0, 0);
    card[27] = 9;
    expect("a first free block that is none", lamporchid_room(card, LENGTH), LAMPORCHID_DAMAGED, 7, 0);
}

/* NULL with length 0, for every slice of every call. */
static void nothing(void)
{
    enum { LENGTH = 343 };
    uint8_t card[LENGTH], before[LENGTH], tray[64];
    memset(tray, 1, sizeof tray);

    expect("no card: format", lamporchid_format(NULL, 0, 6), LAMPORCHID_BAD_SHAPE, 0, 0);
    expect("no card: check", lamporchid_check(NULL, 0), LAMPORCHID_DAMAGED, 1, 0);
    expect("no card: room", lamporchid_room(NULL, 0), LAMPORCHID_DAMAGED, 1, 0);
    expect("no card: create", lamporchid_create(NULL, 0, NULL, 0), LAMPORCHID_DAMAGED, 1, 0);
    expect("no card: size", lamporchid_size(NULL, 0, NULL, 0), LAMPORCHID_DAMAGED, 1, 0);
    expect("no card: write", lamporchid_write(NULL, 0, NULL, 0, 0, NULL, 0), LAMPORCHID_DAMAGED, 1, 0);
    expect("no card: read", lamporchid_read(NULL, 0, NULL, 0, 0, NULL, 0), LAMPORCHID_DAMAGED, 1, 0);
    expect("no card: truncate", lamporchid_truncate(NULL, 0, NULL, 0, 0), LAMPORCHID_DAMAGED, 1, 0);
    expect("no card: delete", lamporchid_delete(NULL, 0, NULL, 0), LAMPORCHID_DAMAGED, 1, 0);
    expect("no card: list", lamporchid_list(NULL, 0, 0, NULL, 0), LAMPORCHID_DAMAGED, 1, 0);

    expect("format", lamporchid_format(card, LENGTH, 6), LAMPORCHID_DONE, 0, 0);
    expect("create", lamporchid_create(card, LENGTH, A, 1), LAMPORCHID_DONE, 0, 0);
    memcpy(before, card, LENGTH);
    expect("no name: create", lamporchid_create(card, LENGTH, NULL, 0), LAMPORCHID_BAD_NAME, 0, 0);
    expect("no name: size", lamporchid_size(card, LENGTH, NULL, 0), LAMPORCHID_BAD_NAME, 0, 0);
    expect("no name: write", lamporchid_write(card, LENGTH, NULL, 0, 0, NULL, 0), LAMPORCHID_BAD_NAME, 0, 0);
    expect("no name: read", lamporchid_read(card, LENGTH, NULL, 0, 0, tray, sizeof tray), LAMPORCHID_BAD_NAME, 0, 0);
    expect("no name: truncate", lamporchid_truncate(card, LENGTH, NULL, 0, 0), LAMPORCHID_BAD_NAME, 0, 0);
    expect("no name: delete", lamporchid_delete(card, LENGTH, NULL, 0), LAMPORCHID_BAD_NAME, 0, 0);
    expect("no data", lamporchid_write(card, LENGTH, A, 1, 0, NULL, 0), LAMPORCHID_DONE, 0, 0);
    expect("no tray: read", lamporchid_read(card, LENGTH, A, 1, 0, NULL, 0), LAMPORCHID_DONE, 0, 0);
    expect("no tray: list", lamporchid_list(card, LENGTH, 0, NULL, 0), LAMPORCHID_SHORT_TRAY, 0, 0);
    expect("no tray and no such entry", lamporchid_list(card, LENGTH, 1, NULL, 0), LAMPORCHID_PAST_THE_END, 0, 0);
    expect_true("the card is as it was", memcmp(card, before, LENGTH) == 0);
    expect_true("so is the tray", tray[0] == 1 && tray[63] == 1);
}

/* A card of 4,096 blocks of 2 to the s bytes: all names that it holds, and one stream of so many data blocks, with `above` blocks over them. */
static void large_card(uint64_t s, uint64_t blocks, uint64_t above)
{
    const uint64_t length = 87 + (4096ull << s), most = blocks << s;
    uint8_t *card = calloc(1, length), *data = malloc(most), *tray = calloc(1, most);
    uint8_t name[64];
    uint64_t free_blocks;
    unsigned i, last = 0;
    if (card == NULL || data == NULL || tray == NULL) {
        expect_true("memory for the test", 0);
        return;
    }
    for (uint64_t j = 0; j < most; j++)
        data[j] = (uint8_t)(j * 31 + j / 4096);

    expect("format", lamporchid_format(card, length, s), LAMPORCHID_DONE, 0, 0);
    memset(name, 'n', sizeof name);
    for (i = 0; i < 255; i++) {
        name[63] = (uint8_t)(i < 47 ? i : i + 1);
        last |= lamporchid_number(lamporchid_create(card, length, name, 64));
    }
    expect_true("255 names", last == LAMPORCHID_DONE);
    expect("no more", lamporchid_create(card, length, A, 1), LAMPORCHID_STREAMS_FULL, 0, 0);
    name[63] = 0;
    free_blocks = lamporchid_count(lamporchid_room(card, length));
    expect("write", lamporchid_write(card, length, name, 64, 0, data, most), LAMPORCHID_DONE, 0, most);
    expect("the data blocks and those above", lamporchid_room(card, length), LAMPORCHID_DONE, 0, free_blocks - blocks - above);
    expect("size", lamporchid_size(card, length, name, 64), LAMPORCHID_DONE, 0, most);
    expect("read", lamporchid_read(card, length, name, 64, 0, tray, most), LAMPORCHID_DONE, 0, most);
    expect_true("the same bytes", memcmp(data, tray, most) == 0);
    expect("list", lamporchid_list(card, length, 0, tray, 64), LAMPORCHID_DONE, 64, most);
    expect_true("its name", memcmp(tray, name, 64) == 0);
    expect("check", lamporchid_check(card, length), LAMPORCHID_DONE, 0, 0);
    expect("truncate", lamporchid_truncate(card, length, name, 64, 1), LAMPORCHID_DONE, 0, 0);
    expect("write again", lamporchid_write(card, length, name, 64, 1, data, most - 1), LAMPORCHID_DONE, 0, most - 1);
    expect("delete", lamporchid_delete(card, length, name, 64), LAMPORCHID_DONE, 0, 0);
    expect("create again", lamporchid_create(card, length, name, 64), LAMPORCHID_DONE, 0, 0);
    expect("all that it had is free", lamporchid_room(card, length), LAMPORCHID_DONE, 0, free_blocks);
    expect("check", lamporchid_check(card, length), LAMPORCHID_DONE, 0, 0);
    card[length - (1ull << s)] = 1;
    expect("a chain that is wrong near its end", lamporchid_check(card, length), LAMPORCHID_DAMAGED, 7, 0);
    free(card);
    free(data);
    free(tray);
}

static void *all(void *unused)
{
    small_card();
    nothing();
    large_card(12, 4000, 5);
    large_card(6, 3400, 228);
    return unused;
}

int main(void)
{
    pthread_t thread;
    pthread_attr_t small;
    if (pthread_attr_init(&small) != 0 || pthread_attr_setstacksize(&small, 256 * 1024) != 0 || pthread_create(&thread, &small, all, NULL) != 0
        || pthread_join(thread, NULL) != 0) {
        printf("no thread with a stack of 256 KiB\n");
        return 1;
    }
    printf("C: %u passed, %u failed, on a stack of 256 KiB\n", passed, failed);
    return failed == 0 ? 0 : 1;
}
