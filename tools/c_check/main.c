/* Calls the proved library from C on cells made by hand. */

#include "payload.h"

#include <stdio.h>
#include <string.h>

/* CRC-8, polynomial x^8 + x^2 + x + 1, register preset to zero. */
static uint8_t check_byte(const uint8_t *bytes, size_t length)
{
    uint8_t value = 0;
    for (size_t i = 0; i < length; i++) {
        value ^= bytes[i];
        for (int bit = 0; bit < 8; bit++)
            value = (uint8_t)((value & 0x80) ? (value << 1) ^ 0x07 : value << 1);
    }
    return value;
}

/* Gives a cell its five check bytes. */
static void set_checks(uint8_t cell[PAYLOAD_CELL])
{
    uint8_t last[7] = {0}; /* six grants and a zero byte */

    cell[10] = check_byte(cell + 3, 7);
    cell[18] = check_byte(cell + 11, 7);
    cell[26] = check_byte(cell + 19, 7);
    memcpy(last, cell + 27, 6);
    cell[33] = check_byte(last, 7);
    cell[46] = check_byte(cell + 34, 12);
}

/* A first cell with some grants, and the ranging time 12345 for ONU 5. */
static void make_cell(uint8_t cell[PAYLOAD_CELL])
{
    memset(cell, 0, PAYLOAD_CELL);
    cell[0] = 1;
    memset(cell + 3, 5, 7);     /* grants 1 to 7: code 5 */
    memset(cell + 11, 0xFE, 7); /* grants 8 to 14: unassigned */
    memset(cell + 19, 0xFD, 7); /* grants 15 to 21: ranging */
    memset(cell + 27, 0xFF, 6); /* grants 22 to 27: idle */
    cell[34] = 5;               /* address */
    cell[35] = 0x03;            /* identifier */
    cell[36] = 0x00;
    cell[37] = 0x30;
    cell[38] = 0x39;
    set_checks(cell);
}

static int wrong;

static void expect(const char *what, uint32_t answer, uint32_t wanted)
{
    const char *verdict = answer == wanted ? "as expected" : "WRONG";

    if (answer != wanted)
        wrong++;
    printf("%-36s %2u, %s\n", what, (unsigned)answer, verdict);
}

int main(void)
{
    static const size_t checks[5] = {10, 18, 26, 33, 46};
    uint8_t sound[PAYLOAD_CELL];
    uint8_t cell[PAYLOAD_CELL];
    uint8_t out[PAYLOAD_CELL];
    uint8_t untouched[PAYLOAD_CELL];
    char what[64];

    make_cell(sound);
    expect("sound cell", payload_check(sound, sizeof sound), PAYLOAD_OK);

    for (int group = 1; group <= 5; group++) {
        memcpy(cell, sound, sizeof cell);
        cell[checks[group - 1]] ^= 0x20;
        snprintf(what, sizeof what, "check byte of group %d damaged", group);
        expect(what, payload_check(cell, sizeof cell), PAYLOAD_CHECK);
    }
    for (int group = 1; group <= 5; group++) {
        memcpy(cell, sound, sizeof cell);
        cell[checks[group - 1] - 1] ^= 0x01;
        snprintf(what, sizeof what, "last byte of group %d damaged", group);
        expect(what, payload_check(cell, sizeof cell), PAYLOAD_CHECK);
    }

    memcpy(cell, sound, sizeof cell);
    cell[35] = 0x11;
    set_checks(cell);
    expect("unknown message", payload_check(cell, sizeof cell), PAYLOAD_MESSAGE);

    memcpy(cell, sound, sizeof cell);
    cell[34] = 64;
    set_checks(cell);
    expect("ranging time for all ONUs", payload_check(cell, sizeof cell), PAYLOAD_MESSAGE);

    expect("47 bytes", payload_check(sound, 47), PAYLOAD_LENGTH);
    expect("no bytes", payload_check(sound, 0), PAYLOAD_LENGTH);

    memset(out, 0xA5, sizeof out);
    memset(untouched, 0xA5, sizeof untouched);
    expect("47 bytes written again", payload_rewrite(sound, 47, out, sizeof out), PAYLOAD_LENGTH);
    expect("unsound cell written again", payload_rewrite(cell, sizeof cell, out, sizeof out), PAYLOAD_MESSAGE);
    expect("sound cell written to 47 bytes", payload_rewrite(sound, sizeof sound, out, 47), PAYLOAD_LENGTH);
    expect("bytes changed by the three", memcmp(out, untouched, sizeof out) != 0, 0);

    memcpy(cell, sound, sizeof cell);
    cell[0] = 0x81;
    cell[1] = 0x12;
    cell[2] = 0x34;
    cell[47] = 0x56;
    cell[45] = 0x77; /* a byte of the message without a meaning */
    set_checks(cell);
    expect("cell with loose bits written again", payload_rewrite(cell, sizeof cell, out, sizeof out), PAYLOAD_OK);
    expect("bytes that are not the sound cell's", memcmp(out, sound, sizeof out) != 0, 0);

    printf("%d wrong\n", wrong);
    return wrong != 0;
}
