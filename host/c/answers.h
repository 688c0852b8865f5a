/* What the programs beside it check: the answer of a call, and what it wrote. The first wrong one ends the program. */
#ifndef ANSWERS_H
#define ANSWERS_H

#include <ctype.h>
#include <inttypes.h>
#include <stdio.h>
#include <stdlib.h>
#include <string.h>

#include "chherbolat.h"

/* What every lent byte holds before a call. */
enum { FILL = 0xA5, LENT_LENGTH = 2048, FRAME = CHHERBOLAT_FRAME_LENGTH, REGISTERS = CHHERBOLAT_REGISTERS_LENGTH };

typedef struct {
    uint8_t bytes[LENT_LENGTH];
    size_t length;
} run;

static uint8_t lent_bytes[LENT_LENGTH];
static unsigned checked;

/* Bytes as the documents write them: two digits each, with spaces anywhere between; 00*22 is 22 zeros. */
static inline run bytes(const char *text)
{
    run read = {.length = 0};
    while (*text != '\0') {
        if (isspace((unsigned char)*text)) {
            text++;
            continue;
        }
        char digits[] = {text[0], text[1], '\0'};
        uint8_t byte = (uint8_t)strtoul(digits, NULL, 16);
        unsigned long times = 1;
        text += 2;
        if (*text == '*') {
            char *end;
            times = strtoul(text + 1, &end, 10);
            text = end;
        }
        memset(read.bytes + read.length, byte, times);
        read.length += times;
    }
    return read;
}

static inline run characters(const char *text)
{
    run read = {.length = strlen(text)};
    memcpy(read.bytes, text, read.length);
    return read;
}

/* What is lent for the next call. */
static inline uint8_t *lent(void)
{
    return memset(lent_bytes, FILL, LENT_LENGTH);
}

static inline void answers(const char *what, chherbolat_answer got, uint32_t number, uint64_t value)
{
    if (got.number != number || got.value != value) {
        fprintf(stderr, "c: %s: the answer is (%" PRIu32 ", 0x%" PRIX64 ")", what, got.number, got.value);
        fprintf(stderr, ", and should be (%" PRIu32 ", 0x%" PRIX64 ")\n", number, value);
        exit(1);
    }
    checked++;
    if (*what == '|' && got.value >> 32 != 0)
        printf("%s (%" PRIu32 ", 0x%016" PRIX64 ")\n", what, got.number, got.value);
    else if (*what == '|')
        printf("%s (%" PRIu32 ", %" PRIu64 ")\n", what, got.number, got.value);
}

#define gives(what, got, value) answers(what, got, 0, value)
#define refuses(what, got, refusal, carries) answers(what, got, CHHERBOLAT_REFUSAL_##refusal, carries)

/* The last call wrote these bytes to the front of what it was lent, and nothing else. */
static inline void wrote(const char *what, run expected)
{
    for (size_t place = 0; place < LENT_LENGTH; place++) {
        uint8_t due = place < expected.length ? expected.bytes[place] : FILL;
        if (lent_bytes[place] != due) {
            fprintf(stderr, "c: %s: byte %zu is %02X, and should be %02X\n", what, place, lent_bytes[place], due);
            exit(1);
        }
    }
}

static inline void wrote_nothing(const char *what)
{
    wrote(what, bytes(""));
}

#endif
