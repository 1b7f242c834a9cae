/*
 * Restores all that an archive holds: asks for each entry by its index, restores its PDU into a buffer, prints network,
 * SSI, part, bits and day, and compares with what was captured. The archive has parts of three users, one of them a
 * visitor from another network, captured in no order; entries rise by network, then SSI, then part. Ends with status 0
 * exactly if all is as it must be.
 */
#include <stdio.h>
#include <string.h>

#include "boc.h"

enum { HOME = 1 };

/* What is captured: a key, a day, and the PDU, which is made here and would come from the switch. */
struct held {
    uint32_t network, ssi, part, day;
    size_t bits;
    uint8_t pdu[BOC_PDU_BYTES];
};

static struct held parts[] = {
    {7, 4, BOC_IDENTITY_PART, 302, 0, {0}},
    {HOME, 6, BOC_IDENTITY_PART, 300, 0, {0}},
    {HOME, 5, BOC_NUMBER_PART, 301, 0, {0}},
    {HOME, 5, BOC_IDENTITY_PART, 304, 0, {0}},
};
enum { PARTS = sizeof parts / sizeof parts[0] };

/* Two buffers in turn: a capture reads one archive and writes the next. */
static uint8_t buffers[2][BOC_ARCHIVE_BYTES];

static size_t bytes_for(size_t bits)
{
    return (bits + 7) / 8;
}

static int refused(const char *what, uint32_t number)
{
    if (number == BOC_OK)
        return 0;
    printf("%s: refused %u (%s)\n", what, (unsigned)number, boc_refusal_text(number));
    return 1;
}

/* The part of a user in which all services to identity 100, or to number 1, are barred. */
static int make(struct held *held)
{
    uint32_t record[BOC_RECORD_WORDS] = {0};
    uint32_t *user = record + boc_identity_at(BOC_AFFECTED, 0);

    record[BOC_PDU_TYPE] = BOC_INTERROGATE_ACK;
    record[BOC_AFFECTED] = 1;
    user[BOC_ENTRY_SSI] = held->ssi;
    if (held->network != HOME) {
        user[BOC_ENTRY_EXTENSION_PRESENT] = 1;
        user[BOC_ENTRY_EXTENSION] = held->network;
    }
    record[BOC_SERVICE_COUNT] = 1;
    record[BOC_SERVICES] = BOC_SERVICE_ALL;
    if (held->part == BOC_NUMBER_PART) {
        uint32_t *number = record + boc_number_at(BOC_RESTRICTED_NUMBERS, 0);

        record[BOC_RESULT] = BOC_RESULT_NUMBERS;
        record[BOC_RESTRICTED_NUMBERS] = 1;
        number[BOC_ENTRY_LENGTH] = 1;
        number[BOC_ENTRY_DIGITS] = 1;
    } else {
        record[BOC_RESULT] = BOC_RESULT_IDENTITIES;
        record[BOC_RESTRICTED] = 1;
        record[boc_identity_at(BOC_RESTRICTED, 0) + BOC_ENTRY_SSI] = 100;
    }
    return refused("write", boc_write(record, BOC_RECORD_WORDS, held->pdu, sizeof held->pdu, &held->bits));
}

/* Captures all parts; the archive is then in the first buffer or the second. */
static int fill(const uint8_t **archive, size_t *length)
{
    size_t i, entry, place;

    if (refused("empty", boc_empty(HOME, buffers[0], BOC_ARCHIVE_BYTES, length)))
        return 1;
    for (i = 0; i < PARTS; i++) {
        struct held *held = &parts[i];

        if (make(held) ||
            refused("capture", boc_capture(buffers[i % 2], *length, held->pdu, bytes_for(held->bits), held->bits,
                                           held->day, buffers[(i + 1) % 2], BOC_ARCHIVE_BYTES, length, &entry, &place)))
            return 1;
    }
    *archive = buffers[PARTS % 2];
    return 0;
}

/* Is this what was captured for the key? */
static int is_captured(const uint32_t key[BOC_KEY_WORDS], const uint8_t *pdu, size_t bits, uint32_t day)
{
    size_t i;

    for (i = 0; i < PARTS; i++) {
        const struct held *held = &parts[i];

        if (held->network == key[BOC_KEY_NETWORK] && held->ssi == key[BOC_KEY_SSI] && held->part == key[BOC_KEY_PART])
            return held->bits == bits && held->day == day && memcmp(held->pdu, pdu, bytes_for(bits)) == 0;
    }
    return 0;
}

/* Restores every entry of an archive. */
static int restore_all(const uint8_t *archive, size_t length)
{
    uint32_t key[BOC_KEY_WORDS], day, restored_day;
    size_t index, bits, restored_bits, entry, place;
    uint8_t pdu[BOC_PDU_BYTES];

    for (index = 0;; index++) {
        uint32_t number = boc_entry(archive, length, index, key, BOC_KEY_WORDS, &bits, &day, &entry, &place);

        if (number == BOC_NOT_HELD)
            break;
        if (refused("entry", number))
            return 1;
        number = boc_restore(archive, length, key[BOC_KEY_NETWORK], key[BOC_KEY_SSI], key[BOC_KEY_PART], pdu,
                             sizeof pdu, &restored_bits, &restored_day, &entry, &place);
        if (refused("restore", number))
            return 1;
        printf("%u/%u part %u bits %zu day %u", (unsigned)key[BOC_KEY_NETWORK], (unsigned)key[BOC_KEY_SSI],
               (unsigned)key[BOC_KEY_PART], bits, (unsigned)day);
        if (restored_bits != bits || restored_day != day || !is_captured(key, pdu, bits, day)) {
            printf(": differs\n");
            return 1;
        }
        printf(": the same\n");
    }
    printf("%zu restored\n", index);
    return index != PARTS;
}

int main(void)
{
    const uint8_t *archive;
    size_t length;

    return fill(&archive, &length) || restore_all(archive, length);
}
