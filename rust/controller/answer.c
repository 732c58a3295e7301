/*
 * The exported functions from C, each under a word:
 *
 *     answer listing < CONFIGURATION      answer deck < DECK      answer line < CONFIGURATION
 *     answer desk < DECKS-AND-IDS         answer legal KIND FUNCTION(octal)   answer core TAKEN(hexadecimal) IB DB
 */
#include <inttypes.h>
#include <stdio.h>
#include <stdlib.h>
#include <string.h>

#include "luffgravel.h"

/* As much of the input as decides, and no more: a longer one has the same answer. */
static uint8_t input[LUFFGRAVEL_DECK_INPUT];
static uint8_t room[LUFFGRAVEL_DECK_ROOM];

static int print(size_t length) {
    return fwrite(room, 1, length, stdout) == length ? EXIT_SUCCESS : EXIT_FAILURE;
}

/* As much of each deck as decides, and of a line as tells an ID from what is longer. */
struct deck {
    uint8_t bytes[LUFFGRAVEL_DECK_INPUT];
    size_t length;
};
static struct deck repair, day;
static uint8_t line[7];

/* Reads a deck through the LF of its termination card; whether it has come. */
static bool read_deck(struct deck *deck) {
    char termination[81];
    snprintf(termination, sizeof termination, "%s %s%50s%s", "))))))))", "+++++++++++++", "", "))))))))");
    /* How much of the card there was, as long as it was like the termination card; else more than that has. */
    size_t alike = 0;
    for (int byte; (byte = getchar()) != EOF;) {
        if (deck->length < sizeof deck->bytes)
            deck->bytes[deck->length++] = (uint8_t)byte;
        if (byte == '\n' && alike == 80)
            return true;
        if (byte == '\n')
            alike = 0;
        else if (alike < 80 && byte == termination[alike])
            alike++;
        else
            alike = 81;
    }
    return false;
}

/* Prints what an ID is answered. */
static void show(size_t id_length) {
    uint8_t deck = 0;
    size_t from = 0, length = 0;
    uint8_t refusal =
        luffgravel_desk(line, id_length, repair.bytes, repair.length, day.bytes, day.length, &deck, &from, &length);
    if (refusal == 0) {
        fwrite((deck == LUFFGRAVEL_REPAIR ? repair.bytes : day.bytes) + from, 1, length, stdout);
        puts(deck == LUFFGRAVEL_REPAIR ? "FROM REPAIR" : "FROM DAY");
    } else {
        printf("NO %d\n", refusal);
    }
    fflush(stdout);
}

/* The desk program: two decks, and then IDs, a line each, the last one with or without LF. */
static int desk(void) {
    if (!read_deck(&repair) || !read_deck(&day)) {
        puts("NO 11");
        return EXIT_SUCCESS;
    }
    size_t length = 0;
    bool is_begun = false;
    for (int byte; (byte = getchar()) != EOF;) {
        is_begun = byte != '\n';
        if (!is_begun) {
            show(length);
            length = 0;
        } else if (length < sizeof line) {
            line[length++] = (uint8_t)byte;
        }
    }
    if (is_begun)
        show(length);
    return ferror(stdout) ? EXIT_FAILURE : EXIT_SUCCESS;
}

int main(int argc, char **argv) {
    const char *word = argc < 2 ? "" : argv[1];
    if (argc == 2 && (strcmp(word, "listing") == 0 || strcmp(word, "deck") == 0 || strcmp(word, "line") == 0)) {
        size_t length = fread(input, 1, sizeof input, stdin);
        if (strcmp(word, "listing") == 0)
            return print(luffgravel_listing(input, length, room, sizeof room));
        if (strcmp(word, "deck") == 0)
            return print(luffgravel_deck(input, length, &room));
        printf("%zu\n", luffgravel_bad_line(input, length));
        return EXIT_SUCCESS;
    }
    if (argc == 2 && strcmp(word, "desk") == 0)
        return desk();
    if (argc == 4 && strcmp(word, "legal") == 0 && strlen(argv[2]) == 2) {
        bool legal = luffgravel_is_legal((uint8_t)argv[2][0], (uint8_t)argv[2][1], (uint8_t)strtoul(argv[3], NULL, 8));
        puts(legal ? "legal" : "not legal");
        return EXIT_SUCCESS;
    }
    if (argc == 5 && strcmp(word, "core") == 0) {
        uint32_t i = 0, j = 0;
        bool found = luffgravel_core((uint32_t)strtoul(argv[2], NULL, 16), (uint32_t)strtoul(argv[3], NULL, 10),
                                     (uint32_t)strtoul(argv[4], NULL, 10), &i, &j);
        if (found)
            printf("%" PRIu32 " %" PRIu32 "\n", i, j);
        else
            puts("nothing");
        return EXIT_SUCCESS;
    }
    fputs("usage: answer listing|deck|line|desk, or legal KIND FUNCTION, or core TAKEN IB DB\n", stderr);
    return 2;
}
