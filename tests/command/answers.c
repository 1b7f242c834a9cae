/*
 * Prints answers of a switch, INTERROGATE ACKs, as lines `BITS HEX` for tests/command:
 *
 *   answers NETWORK FIRST COUNT RESULT VALUE [long]
 *
 * for the users FIRST, FIRST + 1 .., COUNT of them, of a network or of the one that is `home`: with RESULT (1 an
 * identity part, 2 a number part, others no part), in which speech to the identity VALUE, or to the number that VALUE's
 * digits are, is barred; with `long`, the longest part of its kind.
 */
#include <stdio.h>
#include <stdlib.h>
#include <string.h>

#include "boc.h"

/* An identity of a network, or without extension. */
static void put_identity(uint32_t *record, size_t list, size_t index, uint32_t ssi, const char *network)
{
    uint32_t *entry = record + boc_identity_at(list, index);

    entry[BOC_ENTRY_SSI] = ssi;
    entry[BOC_ENTRY_EXTENSION_PRESENT] = strcmp(network, "home") != 0;
    entry[BOC_ENTRY_EXTENSION] = (uint32_t)atol(network);
}

static void put_number(uint32_t *record, size_t list, size_t index, const char *digits, int longest)
{
    uint32_t *entry = record + boc_number_at(list, index);

    entry[BOC_ENTRY_LENGTH] = longest ? BOC_DIGIT_PLACES : (uint32_t)strlen(digits);
    for (size_t i = 0; i < entry[BOC_ENTRY_LENGTH]; i++)
        entry[BOC_ENTRY_DIGITS + i] = longest ? (uint32_t)i % 13 : (uint32_t)(digits[i] - '0');
}

/* Fills three lists of eight entries. */
static void fill(uint32_t *record, const char *value)
{
    static const size_t lists[2][3] = {{BOC_GROUPS, BOC_RESTRICTED, BOC_EXCEPTIONS},
                                       {BOC_GROUPS, BOC_RESTRICTED_NUMBERS, BOC_EXCEPTED_NUMBERS}};
    int numbers = record[BOC_RESULT] == BOC_RESULT_NUMBERS;

    record[BOC_SERVICE_COUNT] = BOC_SERVICE_PLACES;
    for (size_t list = 0; list < 3; list++) {
        record[lists[numbers][list]] = BOC_LIST_PLACES;
        for (size_t i = 0; i < BOC_LIST_PLACES; i++)
            if (numbers && list > 0)
                put_number(record, lists[numbers][list], i, value, 1);
            else
                put_identity(record, lists[numbers][list], i, (uint32_t)(atol(value) + (long)i), "7");
    }
}

static void make(uint32_t *record, const char *network, uint32_t user, uint32_t result, const char *value, int longest)
{
    memset(record, 0, BOC_RECORD_WORDS * sizeof *record);
    record[BOC_PDU_TYPE] = BOC_INTERROGATE_ACK;
    record[BOC_AFFECTED] = 1;
    put_identity(record, BOC_AFFECTED, 0, user, network);
    record[BOC_RESULT] = result;
    record[BOC_SERVICE_COUNT] = 1;
    record[BOC_SERVICES] = BOC_SERVICE_SPEECH;
    if (result != BOC_RESULT_IDENTITIES && result != BOC_RESULT_NUMBERS)
        return;
    if (longest) {
        fill(record, value);
    } else if (result == BOC_RESULT_NUMBERS) {
        record[BOC_RESTRICTED_NUMBERS] = 1;
        put_number(record, BOC_RESTRICTED_NUMBERS, 0, value, 0);
    } else {
        record[BOC_RESTRICTED] = 1;
        put_identity(record, BOC_RESTRICTED, 0, (uint32_t)atol(value), "home");
    }
}

int main(int count, char *words[])
{
    static uint32_t record[BOC_RECORD_WORDS];
    uint8_t pdu[BOC_PDU_BYTES];
    size_t bits;

    if (count < 6)
        return 2;
    for (long i = 0; i < atol(words[3]); i++) {
        make(record, words[1], (uint32_t)(atol(words[2]) + i), (uint32_t)atol(words[4]), words[5], count > 6);
        if (boc_write(record, BOC_RECORD_WORDS, pdu, sizeof pdu, &bits) != BOC_OK)
            return 1;
        printf("%zu ", bits);
        for (size_t j = 0; j < (bits + 7) / 8; j++)
            printf("%02x", pdu[j]);
        printf("\n");
    }
    return 0;
}
