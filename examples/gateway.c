/*
 * A gateway in small: captures what the switch answered for user 1/5, an identity part and a number part, restores
 * both, compares them bit for bit, captures one again on a later day, reloads them as a DEFINE and a DEFINE EXTERNAL,
 * decides calls, and tells where a damaged PDU and a damaged archive are at fault. Ends with status 0 exactly if all is
 * as it must be.
 */
#include <stdio.h>
#include <string.h>

#include "boc.h"

enum { HOME = 1, USER = 5 };

/* The days of the captures. A gateway would take today's, such as time(NULL) / 86400: days since 1970-01-01. */
enum { DAY = 300, NEXT_DAY, LATER_DAY = 304 };

/* A PDU: its bits, and the bytes that hold them. */
struct pdu {
    size_t bits;
    uint8_t bytes[BOC_PDU_BYTES];
};

/* Two buffers in turn: a capture reads one archive and writes the next. */
struct store {
    uint8_t buffers[2][BOC_ARCHIVE_BYTES];
    int current;
    size_t length;
};

static struct store store;

static size_t bytes_for(size_t bits)
{
    return (bits + 7) / 8;
}

/* Where a refused call stopped. */
struct spot {
    size_t entry, place;
};

/* Tells of a refused call its number, its words, and the entry and the bit where it stopped if it has them. */
static int refused(const char *what, uint32_t number, const struct spot *spot)
{
    if (number == BOC_OK)
        return 0;
    printf("%s: refused %u (%s)", what, (unsigned)number, boc_refusal_text(number));
    if (spot != NULL && spot->entry != BOC_NOWHERE)
        printf(", entry %zu", spot->entry);
    if (spot != NULL && spot->place != BOC_NOWHERE)
        printf(", bit %zu", spot->place);
    printf("\n");
    return 1;
}

/* The answer of the switch for identities: speech to 100 to 199 barred, except to 150. */
static const struct pdu identity_part = {
    138,
    {0x49, 0x82, 0x00, 0x00, 0x0a, 0x21, 0x21, 0x20, 0x00, 0x0c, 0x80, 0x00, 0x0c, 0x70, 0x80, 0x00, 0x4b, 0x00},
};

/* An answer for external numbers: all services barred to 112. */
static int make_number_part(struct pdu *pdu)
{
    static const uint32_t digits[] = {1, 1, 2};
    uint32_t record[BOC_RECORD_WORDS] = {0};
    uint32_t *user = record + boc_identity_at(BOC_AFFECTED, 0);
    uint32_t *number = record + boc_number_at(BOC_RESTRICTED_NUMBERS, 0);

    record[BOC_PDU_TYPE] = BOC_INTERROGATE_ACK;
    record[BOC_AFFECTED] = 1;
    user[BOC_ENTRY_SSI] = USER;
    record[BOC_RESULT] = BOC_RESULT_NUMBERS;
    record[BOC_SERVICE_COUNT] = 1;
    record[BOC_SERVICES] = BOC_SERVICE_ALL;
    record[BOC_RESTRICTED_NUMBERS] = 1;
    number[BOC_ENTRY_LENGTH] = 3;
    memcpy(number + BOC_ENTRY_DIGITS, digits, sizeof digits);
    return refused("write", boc_write(record, BOC_RECORD_WORDS, pdu->bytes, sizeof pdu->bytes, &pdu->bits), NULL);
}

/* The bit length of a PDU of which there are only the bytes: the one of eight that is accepted, or 0. */
static size_t bits_of(const uint8_t *bytes, size_t count)
{
    uint32_t record[BOC_RECORD_WORDS];
    size_t unused, place;

    for (unused = 0; unused < 8 && count > 0; unused++)
        if (boc_read(bytes, count, 8 * count - unused, record, BOC_RECORD_WORDS, &place) == BOC_OK)
            return 8 * count - unused;
    return 0;
}

/* Finds the bit length of a PDU anew, and compares. */
static int measure(const struct pdu *pdu)
{
    size_t count = bytes_for(pdu->bits), bits = bits_of(pdu->bytes, count);

    printf("%zu bytes have %zu bits\n", count, bits);
    return bits != pdu->bits;
}

/* The archive with a PDU too becomes the current one, unless the PDU is refused. */
static uint32_t offer(const struct pdu *pdu, uint32_t day, struct spot *spot)
{
    int next = 1 - store.current;
    uint32_t number = boc_capture(store.buffers[store.current], store.length, pdu->bytes, bytes_for(pdu->bits),
                                  pdu->bits, day, store.buffers[next], BOC_ARCHIVE_BYTES, &store.length, &spot->entry,
                                  &spot->place);

    if (number == BOC_OK)
        store.current = next;
    return number;
}

static int capture(const struct pdu *pdu, uint32_t day)
{
    struct spot spot;

    if (refused("capture", offer(pdu, day, &spot), &spot))
        return 1;
    printf("captured %zu bits, day %u, archive %zu bytes\n", pdu->bits, (unsigned)day, store.length);
    return 0;
}

static int restore_and_compare(uint32_t part, const struct pdu *captured, uint32_t captured_on)
{
    struct pdu back = {0};
    struct spot spot;
    uint32_t day;

    if (refused("restore",
                boc_restore(store.buffers[store.current], store.length, HOME, USER, part, back.bytes,
                            sizeof back.bytes, &back.bits, &day, &spot.entry, &spot.place),
                &spot))
        return 1;
    if (back.bits != captured->bits || memcmp(back.bytes, captured->bytes, bytes_for(back.bits)) != 0 ||
        day != captured_on) {
        printf("restored part %u: differs\n", (unsigned)part);
        return 1;
    }
    printf("restored part %u: %zu bits, day %u, the same\n", (unsigned)part, back.bits, (unsigned)day);
    return 0;
}

/* A second look at the identity part, which has not changed: the archive is the same but for two bytes, its day. */
static int look_again(void)
{
    enum { FIRST_DAY = 14, AFTER_FIRST_DAY = 16 };
    const uint8_t *before = store.buffers[store.current], *after = store.buffers[1 - store.current];
    size_t length = store.length;

    if (capture(&identity_part, LATER_DAY) || restore_and_compare(BOC_IDENTITY_PART, &identity_part, LATER_DAY))
        return 1;
    return store.length != length || memcmp(before, after, FIRST_DAY) != 0 ||
           memcmp(before + AFTER_FIRST_DAY, after + AFTER_FIRST_DAY, length - AFTER_FIRST_DAY) != 0;
}

/* A part as a PDU of this type that replaces what the switch has; the user is told and acknowledges it. */
static uint32_t reload(uint32_t part, uint32_t type, struct pdu *define, struct spot *spot)
{
    const uint8_t *archive = store.buffers[store.current];

    if (type == BOC_DEFINE_EXTERNAL)
        return boc_reload_external(archive, store.length, HOME, USER, BOC_REPLACEMENT, 1, 1, define->bytes,
                                   sizeof define->bytes, &define->bits, &spot->entry, &spot->place);
    return boc_reload(archive, store.length, HOME, USER, part, BOC_REPLACEMENT, 1, 1, define->bytes,
                      sizeof define->bytes, &define->bits, &spot->entry, &spot->place);
}

/* The record of a PDU. */
static int read_record(const struct pdu *pdu, uint32_t record[BOC_RECORD_WORDS])
{
    struct spot spot = {BOC_NOWHERE, BOC_NOWHERE};

    return refused("read", boc_read(pdu->bytes, bytes_for(pdu->bits), pdu->bits, record, BOC_RECORD_WORDS, &spot.place),
                   &spot);
}

/* Whether two records have the same words from a place up to another. */
static int same_words(const uint32_t *a, const uint32_t *b, size_t from, size_t to)
{
    return memcmp(a + from, b + from, (to - from) * sizeof *a) == 0;
}

/* Reloads a part as a PDU of this type, and reads that: its user, services and lists are those of the part. */
static int reload_and_compare(uint32_t part, const struct pdu *captured, uint32_t type)
{
    uint32_t held[BOC_RECORD_WORDS], defined[BOC_RECORD_WORDS];
    struct pdu define = {0};
    struct spot spot;
    size_t i;

    if (refused("reload", reload(part, type, &define, &spot), &spot))
        return 1;
    printf("reloaded part %u: %zu bits,", (unsigned)part, define.bits);
    for (i = 0; i < bytes_for(define.bits); i++)
        printf(" %02x", define.bytes[i]);
    printf("\n");
    if (read_record(captured, held) || read_record(&define, defined))
        return 1;
    return defined[BOC_PDU_TYPE] != type || defined[BOC_DEFINITION_TYPE] != BOC_REPLACEMENT ||
           !same_words(held, defined, BOC_AFFECTED, BOC_INTERROGATION_TYPE) ||
           !same_words(held, defined, BOC_SERVICE_COUNT, BOC_DELIVERY);
}

/* A DEFINE has no place for the restricted number of the number part. */
static int reload_numbers(void)
{
    struct pdu define = {0};
    struct spot spot;
    uint32_t number = reload(BOC_NUMBER_PART, BOC_DEFINE, &define, &spot);

    refused("reload, number part", number, &spot);
    return number != BOC_LOSS;
}

/* Decides a call for which all but the destination is set here, by both engines, and compares the decisions. */
static int decide(const char *call, uint32_t request[BOC_REQUEST_WORDS], uint32_t expected)
{
    uint32_t decision, in_place;
    struct spot spot;

    request[BOC_USER_NETWORK] = HOME;
    request[BOC_USER_SSI] = USER;
    request[BOC_REQUEST_SERVICE] = BOC_SERVICE_SPEECH;
    if (refused(call,
                boc_decide(store.buffers[store.current], store.length, request, BOC_REQUEST_WORDS, &decision,
                           &spot.entry, &spot.place),
                &spot) ||
        refused(call,
                boc_decide_in_place(store.buffers[store.current], store.length, request, BOC_REQUEST_WORDS, &in_place,
                                    &spot.entry, &spot.place),
                &spot))
        return 1;
    printf("speech to %s: %s\n", call, boc_decision_text(decision));
    return decision != expected || in_place != decision;
}

static int decide_identity(const char *call, uint32_t ssi, uint32_t expected)
{
    uint32_t request[BOC_REQUEST_WORDS] = {0};

    request[BOC_DESTINATION] = BOC_TO_IDENTITY;
    request[BOC_NETWORK] = HOME;
    request[BOC_SSI] = ssi;
    return decide(call, request, expected);
}

static int decide_number(const char *digits, uint32_t expected)
{
    uint32_t request[BOC_REQUEST_WORDS] = {0};
    size_t i;

    request[BOC_DESTINATION] = BOC_TO_NUMBER;
    request[BOC_LENGTH] = (uint32_t)strlen(digits);
    for (i = 0; digits[i] != '\0'; i++)
        request[BOC_DIGITS + i] = (uint32_t)(digits[i] - '0');
    return decide(digits, request, expected);
}

static uint8_t text[BOC_CONTENTS_BYTES];

static uint32_t list_to_text(size_t *length, struct spot *spot)
{
    return boc_contents(store.buffers[store.current], store.length, text, sizeof text, length, &spot->entry,
                        &spot->place);
}

static int list(void)
{
    struct spot spot;
    size_t length;

    if (refused("contents", list_to_text(&length, &spot), &spot))
        return 1;
    return fwrite(text, 1, length, stdout) != length;
}

/* Offers an identity part whose number of services, three bits from place 45 on, has become 0. */
static int offer_damaged(void)
{
    struct pdu damaged = identity_part;
    struct spot spot;
    uint32_t number;

    damaged.bytes[5] ^= 0x01;
    number = offer(&damaged, LATER_DAY, &spot);
    refused("capture, damaged", number, &spot);
    return number != BOC_VALUE || spot.entry != BOC_NOWHERE || spot.place != 45;
}

/* Lists the archive while the body of its last entry, the number part, has at place 6 a PDU type that is none. */
static int list_damaged(const struct pdu *number_part)
{
    uint8_t *body = store.buffers[store.current] + store.length - bytes_for(number_part->bits);
    struct spot spot;
    uint32_t number;
    size_t length;

    body[0] ^= 0x01;
    number = list_to_text(&length, &spot);
    body[0] ^= 0x01;
    refused("contents, damaged", number, &spot);
    return number != BOC_ARCHIVE || spot.entry != 1 || spot.place != 6;
}

int main(void)
{
    struct pdu number_part = {0};

    if (refused("empty", boc_empty(HOME, store.buffers[0], BOC_ARCHIVE_BYTES, &store.length), NULL))
        return 1;
    if (measure(&identity_part) || capture(&identity_part, DAY) || decide_number("112", BOC_PART_NOT_HELD))
        return 1;
    if (make_number_part(&number_part) || capture(&number_part, NEXT_DAY) || list())
        return 1;
    if (restore_and_compare(BOC_IDENTITY_PART, &identity_part, DAY) ||
        restore_and_compare(BOC_NUMBER_PART, &number_part, NEXT_DAY) || look_again())
        return 1;
    if (reload_and_compare(BOC_IDENTITY_PART, &identity_part, BOC_DEFINE) || reload_numbers() ||
        reload_and_compare(BOC_NUMBER_PART, &number_part, BOC_DEFINE_EXTERNAL))
        return 1;
    if (decide_identity("1/100", 100, BOC_BARRED_DESTINATION) || decide_identity("1/150", 150, BOC_ALLOWED))
        return 1;
    if (decide_number("112", BOC_BARRED_DESTINATION) || decide_number("113", BOC_ALLOWED))
        return 1;
    return offer_damaged() || list_damaged(&number_part);
}
