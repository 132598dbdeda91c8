/*
 * Prints each Pauli that midvokt_buffers.h reads among all texts of up to five of a few
 * characters. `check` compares what is printed with what paulis.rs prints of the viewer's reader.
 * C99 and C++11.
 */
#include <inttypes.h>
#include <stdio.h>

#include "midvokt_buffers.h"

#define MOST_CHARACTERS 5
#define LENGTH(array) (sizeof(array) / sizeof(array)[0])

static const char characters[] = "+-iXYI_012*x";
static const uint64_t widths[] = {0, 1, 2, 3, 20};

/* Prints what a text is over each width. */
static void print_of(const char *text)
{
    midvokt_pauli pauli;
    size_t place;
    for (place = 0; place < LENGTH(widths); place++)
        if (midvokt_read_pauli(&pauli, widths[place], text) == MIDVOKT_MADE)
            printf("%s %" PRIu64 " %" PRIu64 " %" PRIu64 " %" PRIu64 "\n", text, widths[place],
                   pauli.x, pauli.z, pauli.phase);
}

/* Puts the first character where the last one stands, from the front on, and the next one where
 * another stands. Whether there was such. */
static int goes_on(size_t *digits, size_t length)
{
    size_t place = 0;
    while (place < length && digits[place] == sizeof characters - 2)
        digits[place++] = 0;
    if (place < length)
        digits[place]++;
    return place < length;
}

/* The text of some digits. */
static void write_text(char *text, const size_t *digits, size_t length)
{
    size_t place;
    for (place = 0; place < length; place++)
        text[place] = characters[digits[place]];
    text[length] = 0;
}

/* Prints the Paulis among the texts of a length. */
static void print_length(size_t length)
{
    size_t digits[MOST_CHARACTERS] = {0, 0, 0, 0, 0};
    char text[MOST_CHARACTERS + 1];
    do {
        write_text(text, digits, length);
        print_of(text);
    } while (goes_on(digits, length));
}

int main(void)
{
    size_t length;
    for (length = 0; length <= MOST_CHARACTERS; length++)
        print_length(length);
    return 0;
}
