/* A card in memory: made, filled, listed, read, and refused in words. The whole of a program that uses the store from C. */
#include "../include/lamporchid.h"

#include <inttypes.h>
#include <stdio.h>
#include <stdlib.h>
#include <string.h>

/* 64 blocks of 2 to the 7 bytes, after the header of 87. */
enum { S = 7, BLOCKS = 64, LENGTH = 87 + (BLOCKS << S) };

/* Tells what came of a call. A refusal leaves the card as it was, so that a program may go on. */
static int done(const char *asked, uint64_t word)
{
    if (lamporchid_number(word) == LAMPORCHID_DONE) {
        printf("%s: done\n", asked);
        return 1;
    }
    printf("%s: refused (%u), %s", asked, lamporchid_number(word), lamporchid_words(word));
    if (lamporchid_rule(word) != 0)
        printf(": it breaks rule %u", lamporchid_rule(word));
    printf("\n");
    return 0;
}

static void show_lists(const uint8_t *card)
{
    uint8_t name[64];
    for (uint64_t k = 0;; k++) {
        uint64_t word = lamporchid_list(card, LENGTH, k, name, sizeof name);
        if (lamporchid_number(word) != LAMPORCHID_DONE)
            return;
        printf("    %.*s, %" PRIu64 " bytes\n", (int)lamporchid_name_length(word), (const char *)name, lamporchid_count(word));
    }
}

int main(void)
{
    static const uint8_t boats[] = "boats", rows[] = "1,boat at the mill\n2,boat at the school\n";
    const uint64_t name_length = sizeof boats - 1, length = sizeof rows - 1;
    uint8_t *card = calloc(1, LENGTH), tray[256];
    if (card == NULL)
        return 1;

    int good = done("format", lamporchid_format(card, LENGTH, S));
    good &= done("create boats", lamporchid_create(card, LENGTH, boats, name_length));
    good &= done("write its rows", lamporchid_write(card, LENGTH, boats, name_length, 0, rows, length));
    show_lists(card);

    uint64_t word = lamporchid_read(card, LENGTH, boats, name_length, 0, tray, sizeof tray);
    good &= done("read them", word) && lamporchid_count(word) == length && memcmp(tray, rows, length) == 0;
    fwrite(tray, 1, lamporchid_count(word), stdout);

    good &= !done("create boats again", lamporchid_create(card, LENGTH, boats, name_length));
    good &= !done("create a list without a name", lamporchid_create(card, LENGTH, NULL, 0));
    card[27] = 0; /* The chain of free blocks now begins with the table's own block. */
    good &= !done("delete boats from a damaged card", lamporchid_delete(card, LENGTH, boats, name_length));
    free(card);
    return good ? 0 : 1;
}
