/*
 * The proved functions that a controller links: libcontroller.a for Linux on x86-64 of level v2 or later, which `rt lib` writes in crates/controller_c (as libcontroller_c.a) and
 * ./install puts under its name.
 *
 * Each function keeps its promise for every value that it is handed, provided that the caller keeps to this, which no proof can ask of C:
 *
 *  - A pointer with a length points to that many bytes, which the caller may read, or write where the pointer is not const. It is never NULL,
 *    not even beside length 0. No length is over PTRDIFF_MAX. A pointer to an array points to one of that length.
 *  - What is lent for writing overlaps nothing else that is lent to the same call, and nobody touches it before the call returns.
 *  - The stack has room: docs/LINKING.md has the figures.
 *
 * No function keeps a pointer, allocates, blocks, calls back or has a state of its own, and every call ends. So several threads may call them at once, each
 * with its own memory.
 */
#ifndef LUFFGRAVEL_H
#define LUFFGRAVEL_H

#include <stdbool.h>
#include <stddef.h>
#include <stdint.h>

#ifdef __cplusplus
extern "C" {
#endif

/* Room that holds every listing whole, and the room that is lent for the report of a deck, which holds every one. */
#define LUFFGRAVEL_LISTING_ROOM 96
#define LUFFGRAVEL_DECK_ROOM 53248

/* What decides of an input: a longer one is answered by as many of its first bytes as by all of it. LUFFGRAVEL_DECK_INPUT holds for each of two decks too. */
#define LUFFGRAVEL_LISTING_INPUT 2048
#define LUFFGRAVEL_DECK_INPUT 16385

/* The deck that has a request's cards. */
#define LUFFGRAVEL_REPAIR 1
#define LUFFGRAVEL_DAY 2

/*
 * Puts the listing of a configuration into `out` and answers its length: for each channel but the drum's a line `cc n`, n its units that can be given
 * to a job in the fresh cell, or `ER 14 LINE n` for a text that is no configuration. A room that is too short gets what fits, and what is
 * answered is how much that was. Every byte of the room behind it is kept.
 */
size_t luffgravel_listing(const uint8_t *config, size_t config_length, uint8_t *out, size_t out_length);

/*
 * Puts the report of a deck, read into an empty schedule, into `out` and answers its length: the errors in deck order, the schedule in selection order, the last
 * good ID; or `SCH ER 11` for a deck that is too long or has no termination card. `out` points to an array of that length and no other (`&room`), so nothing
 * is cut. Every byte of the room behind the report is kept.
 */
size_t luffgravel_deck(const uint8_t *deck, size_t deck_length, uint8_t (*out)[LUFFGRAVEL_DECK_ROOM]);

/*
 * Shows a request's own cards in the deck that has them. Answers 0, and puts LUFFGRAVEL_REPAIR into `*deck` if the repair deck has a group with that ID, else
 * LUFFGRAVEL_DAY if the day's deck has one; or answers the refusal: 11 if a deck is too long or has no termination card, which is looked at first, of both
 * decks, and 22 if neither has such a group. An ID that is not 1 to 6 of A-Z and 0-9 has none. Of several groups in a deck the first counts. Its cards are the
 * `*length` bytes of that deck from its byte `*from` on, as they stand there, the last one's LF included; nothing is copied. After a refusal all three numbers
 * keep what they held. `deck`, `from` and `length` are three different numbers. The ID and the decks, which are only read, may overlap.
 */
uint8_t luffgravel_desk(const uint8_t *id, size_t id_length, const uint8_t *repair, size_t repair_length, const uint8_t *day, size_t day_length,
                        uint8_t *deck, size_t *from, size_t *length);

/* 0 if a text is a configuration, else the number of its first bad or missing line, counted from 1. */
size_t luffgravel_bad_line(const uint8_t *config, size_t config_length);

/*
 * Whether a function code is legal on channels of a kind, which goes by the two letters of its code, as 'M' and 'T': MA, MT, PR, MD, MC, CR and PT are
 * kinds. On letters that are no kind's no function is legal, and no code over 077 is legal on any.
 */
bool luffgravel_is_legal(uint8_t first, uint8_t second, uint8_t function);

/*
 * The core of a job that asks for `ib` instruction blocks and `db` data blocks, where block b is taken if bit b of `taken` is set: of blocks 2 to 29, two
 * runs of free blocks that have none in common. Where there are such, the lowest IB start and for it the lowest DB start are put into `*i` and `*j` (0 into
 * `*j` if db is 0), and true is answered. Where there are none, false, and both keep what they held. `i` and `j` are two different numbers.
 */
bool luffgravel_core(uint32_t taken, uint32_t ib, uint32_t db, uint32_t *i, uint32_t *j);

#ifdef __cplusplus
}
#endif

#endif
