/* Lamporchid: a filing system inside one run of bytes, the card.
 *
 * Ten calls. Each takes slices (a pointer and a length in bytes) and numbers of 64 bits, and returns one word. No call keeps a
 * pointer, allocates memory, opens anything or prints.
 *
 * What you may hand over
 *   Any bytes as card, name, data and tray, of any length, and any number. A call examines the card itself, every time.
 *   Each pointer must be good for its whole length, which is below 2 to the 63: readable where it is const, else readable
 *   and writable; and no other thread may change those bytes while the call runs.
 *   Card, name, data and tray of one call must not overlap, where one of them is written (card without const, tray).
 *   A slice of length 0 is empty, and nothing is read or written through its pointer: NULL will do.
 *
 * What a refusal leaves
 *   Every byte of card and tray, and of all else that was lent, as it was. A call that is done changes no byte outside its card or tray.
 *
 * What is proved, and what is not
 *   For every input, the word and every byte of card and tray after the call are proved to be those of docs/LAYOUT.md, as
 *   crates/layout renders it. Not proved: that your stack suffices (each call needs less than 256 KiB, by a test), the compiler's back end,
 *   and this boundary, which is to say this file and the way your compiler passes arguments. */
#ifndef LAMPORCHID_H
#define LAMPORCHID_H

#include <stdint.h>

#ifdef __cplusplus
extern "C" {
#endif

/* ---- the word ---- */

/* Bits 0 to 7: a number of the list below. */
enum {
    LAMPORCHID_DONE = 0,
    LAMPORCHID_DAMAGED = 1,       /* the card breaks a rule; the word tells the lowest, 1 to 8 */
    LAMPORCHID_BAD_NAME = 2,      /* a name of no bytes, of more than 64, or with the byte 47, "/" */
    LAMPORCHID_NOT_KNOWN = 3,     /* no stream has that name */
    LAMPORCHID_ALREADY_KNOWN = 4, /* a stream has that name already */
    LAMPORCHID_PAST_THE_END = 5,  /* a place or length above the stream's size, or no entry with that number */
    LAMPORCHID_STREAMS_FULL = 6,  /* there are 256 streams, the root among them */
    LAMPORCHID_NO_ROOM = 7,       /* more blocks are needed than are free */
    LAMPORCHID_SHORT_TRAY = 8,    /* a tray of less than 64 bytes for a name */
    LAMPORCHID_BAD_SHAPE = 9      /* no card has that length with that block size */
};
/* Where several apply, the lowest number is given. With a refusal the rest of the word is 0, but for DAMAGED's rule. */

static inline unsigned lamporchid_number(uint64_t word) { return (unsigned)(word & 255); }

/* Bits 8 to 15: DAMAGED's rule, or the length of a listed name; else 0. */
static inline unsigned lamporchid_rule(uint64_t word) { return lamporchid_number(word) == LAMPORCHID_DAMAGED ? (unsigned)(word >> 8 & 255) : 0; }
static inline uint64_t lamporchid_name_length(uint64_t word) { return lamporchid_number(word) == LAMPORCHID_DONE ? word >> 8 & 255 : 0; }

/* Bits 16 to 63: how many bytes were written or read, how many blocks are free, or how many bytes a stream has; else 0. */
static inline uint64_t lamporchid_count(uint64_t word) { return word >> 16; }

/* The number in words. */
static inline const char *lamporchid_words(uint64_t word)
{
    switch (lamporchid_number(word)) {
    case LAMPORCHID_DONE: return "done";
    case LAMPORCHID_DAMAGED: return "the card is damaged";
    case LAMPORCHID_BAD_NAME: return "a name has 1 to 64 bytes, and no slash";
    case LAMPORCHID_NOT_KNOWN: return "no stream has that name";
    case LAMPORCHID_ALREADY_KNOWN: return "a stream has that name already";
    case LAMPORCHID_PAST_THE_END: return "that is past the end";
    case LAMPORCHID_STREAMS_FULL: return "the card can hold no more streams";
    case LAMPORCHID_NO_ROOM: return "the card has not enough free blocks";
    case LAMPORCHID_SHORT_TRAY: return "the tray for a name has less than 64 bytes";
    case LAMPORCHID_BAD_SHAPE: return "no card has that length with that block size";
    default: return "no answer of this store";
    }
}

/* ---- the calls ---- */

/* The card becomes a new one with blocks of 2 to the s bytes, s from 6 to 12; its length is 87 + 1 to 4,096 whole blocks.
 * Whatever it held is gone. */
uint64_t lamporchid_format(uint8_t *card, uint64_t card_length, uint64_t s);

/* Whether the card is sound; else DAMAGED. */
uint64_t lamporchid_check(const uint8_t *card, uint64_t card_length);

/* Counts the free blocks. */
uint64_t lamporchid_room(const uint8_t *card, uint64_t card_length);

/* A new stream of no bytes. */
uint64_t lamporchid_create(uint8_t *card, uint64_t card_length, const uint8_t *name, uint64_t name_length);

/* How many bytes a stream has. */
uint64_t lamporchid_size(const uint8_t *card, uint64_t card_length, const uint8_t *name, uint64_t name_length);

/* The data goes into the stream from `place` on, which is not past its end, and lengthens it where it must. All of it, or a refusal. */
uint64_t lamporchid_write(uint8_t *card, uint64_t card_length, const uint8_t *name, uint64_t name_length, uint64_t place,
                          const uint8_t *data, uint64_t data_length);

/* The stream's bytes from `place` on go into the tray, as far as both go; the count tells how many. The tray's rest stays. */
uint64_t lamporchid_read(const uint8_t *card, uint64_t card_length, const uint8_t *name, uint64_t name_length, uint64_t place,
                         uint8_t *tray, uint64_t tray_length);

/* The stream's first n bytes are kept; n is not above its size. */
uint64_t lamporchid_truncate(uint8_t *card, uint64_t card_length, const uint8_t *name, uint64_t name_length, uint64_t n);

/* The stream goes, and its blocks are free again. */
uint64_t lamporchid_delete(uint8_t *card, uint64_t card_length, const uint8_t *name, uint64_t name_length);

/* The name of entry k, counted from 0, goes into the tray, of 64 bytes at least; the word tells its length and its stream's size. */
uint64_t lamporchid_list(const uint8_t *card, uint64_t card_length, uint64_t k, uint8_t *tray, uint64_t tray_length);

#ifdef __cplusplus
}
#endif

#endif
