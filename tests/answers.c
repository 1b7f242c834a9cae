/*
 * Every call on inputs that follow from a seed: records of all nine PDUs, legal and spoilt, their PDUs whole, cut and
 * with bits changed, archives of them, whole and with bits changed. Prints for each call how often it answered each
 * number, and a sum over all that it left in its buffers and behind its pointers: on either processor the library gives
 * the same lines. Ends with status 1 if a call did not give each of the numbers that it can give, or gave another.
 */
#include <stdio.h>
#include <string.h>

#include "boc.h"

enum { ROUNDS = 3000, SPOILT = 12, NUMBERS = 13 };

/* What is told of each call: its name, the numbers that it can give as bits, how often it gave each, and the sum. */
enum call { READ, WRITE, CAPTURE, ENTRY, RESTORE, RELOAD, EXTERNAL, DECIDE, IN_PLACE, CONTENTS, CALLS };
static struct {
    const char *name;
    unsigned can;
    unsigned long given[NUMBERS];
    uint64_t sum;
} told[CALLS] = {
    {"boc_read", 0x003f, {0}, 0},
    {"boc_write", 0x0119, {0}, 0},
    {"boc_capture", 0x03ff, {0}, 0},
    {"boc_entry", 0x0881, {0}, 0},
    {"boc_restore", 0x0b81, {0}, 0},
    {"boc_reload", 0x1b81, {0}, 0},
    {"boc_reload_external", 0x1b81, {0}, 0},
    {"boc_decide", 0x0281, {0}, 0},
    {"boc_decide_in_place", 0x0281, {0}, 0},
    {"boc_contents", 0x0181, {0}, 0},
};

static uint64_t state = 1;

/* A number below a limit. */
static uint32_t below(uint32_t limit)
{
    state ^= state << 13;
    state ^= state >> 7;
    state ^= state << 17;
    return (uint32_t)((state >> 16) % limit);
}

/* Adds bytes to the sum of a call. */
static void add(enum call call, const void *bytes, size_t count)
{
    const unsigned char *byte = bytes;
    size_t i;

    for (i = 0; i < count; i++)
        told[call].sum = (told[call].sum ^ byte[i]) * 1099511628211u;
}

/* What a call is lent, filled before each with what it may leave. */
static uint32_t words[BOC_RECORD_WORDS], key[BOC_KEY_WORDS], day, decision;
static uint8_t out[BOC_ARCHIVE_BYTES];
static size_t room, length, entry, place;

static void lend(size_t bytes)
{
    room = bytes;
    memset(words, 0x5a, sizeof words);
    memset(key, 0x5a, sizeof key);
    memset(out, 0x5a, bytes);
    day = decision = 90;
    length = entry = place = 91;
}

/* Counts an answer, and adds it and all that was lent to the sum. */
static uint32_t tell(enum call call, uint32_t number)
{
    uint64_t left[] = {number, day, decision, length, entry, place};

    if (number < NUMBERS)
        told[call].given[number]++;
    add(call, left, sizeof left);
    add(call, words, sizeof words);
    add(call, key, sizeof key);
    add(call, out, room);
    return number;
}

/* ---- records */

static uint32_t record[BOC_RECORD_WORDS];

static void put_identity(uint32_t *at, uint32_t ssi, uint32_t network)
{
    at[BOC_ENTRY_SSI] = ssi;
    at[BOC_ENTRY_EXTENSION_PRESENT] = network != 0;
    at[BOC_ENTRY_EXTENSION] = network;
}

/* A list of identities: few of them, so that requests meet them, with an extension or none; a range may be reversed. */
static void put_identities(size_t list, uint32_t code)
{
    uint32_t i, count = code == BOC_FIRST_AND_LAST ? 2 : code, network = below(3), ssi = below(9);

    record[list] = code;
    for (i = 0; i < count; i++) {
        put_identity(record + boc_identity_at(list, i), ssi, network);
        ssi += below(4);
        if (code != BOC_FIRST_AND_LAST)
            network = below(3);
    }
    if (code == BOC_FIRST_AND_LAST && !below(16))
        record[boc_identity_at(list, 0) + BOC_ENTRY_SSI] += 20;
}

static void put_numbers(size_t list, uint32_t code)
{
    uint32_t i, j;

    record[list] = code;
    for (i = 0; i < code; i++) {
        uint32_t *at = record + boc_number_at(list, i);

        at[BOC_ENTRY_LENGTH] = below(3) ? 1 + below(2) : 1 + below(BOC_DIGIT_PLACES);
        for (j = 0; j < at[BOC_ENTRY_LENGTH]; j++)
            at[BOC_ENTRY_DIGITS + j] = below(2) ? 1 : below(BOC_DIGIT_PLUS + 1);
    }
}

static uint32_t some_code(void) { return below(2) ? below(3) : below(BOC_FIRST_AND_LAST + 1); }

static void put_services(void)
{
    uint32_t i;

    record[BOC_SERVICE_COUNT] = below(2) ? 1 : 1 + below(BOC_SERVICE_PLACES);
    for (i = 0; i < record[BOC_SERVICE_COUNT]; i++)
        record[BOC_SERVICES + i] = below(BOC_SERVICE_SHORT_DATA + 1);
}

/* The services, and the lists of a part: 0 for none. */
static void put_part(uint32_t part)
{
    put_services();
    if (part == 0)
        return;
    put_identities(BOC_GROUPS, below(2) ? 0 : some_code());
    if (part == BOC_IDENTITY_PART) {
        put_identities(BOC_RESTRICTED, some_code());
        put_identities(BOC_EXCEPTIONS, some_code());
    } else {
        put_numbers(BOC_RESTRICTED_NUMBERS, some_code() % BOC_FIRST_AND_LAST);
        put_numbers(BOC_EXCEPTED_NUMBERS, some_code() % BOC_FIRST_AND_LAST);
    }
}

static void put_definition(uint32_t part)
{
    record[BOC_DEFINITION_TYPE] = below(BOC_REMOVAL + 1);
    put_part(record[BOC_DEFINITION_TYPE] == BOC_REMOVAL ? 0 : part);
}

/* A result that is not reserved: below 8, and none from `low` to 5. */
static uint32_t some_result(uint32_t low)
{
    uint32_t result = below(low + 2);

    return result < low ? result : result - low + 6;
}

/* A record, legal but for ranges: most often of an INTERROGATE ACK for one user. */
static void make_record(void)
{
    uint32_t type = below(3) ? BOC_INTERROGATE_ACK : BOC_DEFINE + below(9);

    memset(record, 0, sizeof record);
    record[BOC_PDU_TYPE] = type;
    if (type != BOC_DEFINE_USER && type != BOC_DEFINE_USER_ACK && type != BOC_DEFINE_EXTERNAL_USER &&
        type != BOC_CALL_BARRED)
        put_identities(BOC_AFFECTED, below(8) ? 1 : 1 + below(BOC_FIRST_AND_LAST));
    switch (type) {
    case BOC_DEFINE:
    case BOC_DEFINE_EXTERNAL:
        record[BOC_DELIVERY] = below(2);
        record[BOC_ACKNOWLEDGEMENT] = record[BOC_DELIVERY] * below(2);
        put_definition(type == BOC_DEFINE ? BOC_IDENTITY_PART : BOC_NUMBER_PART);
        break;
    case BOC_DEFINE_USER:
    case BOC_DEFINE_EXTERNAL_USER:
        record[BOC_ACKNOWLEDGEMENT] = below(2);
        put_definition(BOC_IDENTITY_PART);
        break;
    case BOC_DEFINE_ACK: record[BOC_DEFINITION_RESULT] = some_result(5); break;
    case BOC_DEFINE_USER_ACK: record[BOC_DISTRIBUTION_RESULT] = some_result(2); break;
    case BOC_INTERROGATE: record[BOC_INTERROGATION_TYPE] = 1 + below(3); break;
    case BOC_CALL_BARRED: record[BOC_REJECTION_CAUSE] = below(3); break;
    default:
        record[BOC_RESULT] = below(4) ? 1 + below(2) : some_result(5);
        record[BOC_DELIVERY_STATUS] = below(4);
        put_part(record[BOC_RESULT] <= BOC_RESULT_NUMBERS ? record[BOC_RESULT] : 0);
    }
}

/* ---- PDUs */

static uint8_t pdu[BOC_PDU_BYTES + 1];
static size_t bits;

static size_t bytes_for(size_t count) { return (count + 7) / 8; }

/* A word of the record becomes another number. */
static void spoil_record(void)
{
    uint32_t word = below(BOC_RECORD_WORDS);

    record[word] = below(20);
}

/* Changes a bit of so many, and says which. */
static size_t change_bit(uint8_t *bytes, size_t count)
{
    size_t at = below((uint32_t)count);

    bytes[at / 8] ^= (uint8_t)(0x80 >> at % 8);
    return at;
}

static void write_record(void)
{
    lend(below(6) ? BOC_PDU_BYTES : below(40));
    if (tell(WRITE, boc_write(record, BOC_RECORD_WORDS, out, room, &length)) == BOC_OK) {
        bits = length;
        memcpy(pdu, out, bytes_for(bits));
    }
}

static void read_pdu(size_t count)
{
    lend(0);
    tell(READ, boc_read(pdu, bytes_for(count), count, words, BOC_RECORD_WORDS, &place));
}

/* The PDU, then cut, longer by some bits, and with a bit changed. */
static void read_spoilt(void)
{
    int i;

    read_pdu(bits);
    for (i = 0; i < SPOILT; i++) {
        size_t at = change_bit(pdu, bits);

        read_pdu(bits);
        pdu[at / 8] ^= (uint8_t)(0x80 >> at % 8);
    }
    read_pdu(bits - 1 - below((uint32_t)bits));
    pdu[bytes_for(bits)] = 0;
    read_pdu(bits + 1 + below(8));
}

/* ---- archives */

static uint8_t archive[BOC_ARCHIVE_BYTES];
static size_t held;

static void capture(void)
{
    lend(below(8) ? sizeof out : below(200));
    if (tell(CAPTURE, boc_capture(archive, held, pdu, bytes_for(bits), bits, below(BOC_DAY_LIMIT + 500), out, room,
                                  &length, &entry, &place)) == BOC_OK) {
        held = length;
        memcpy(archive, out, held);
    }
}

static void ask(void)
{
    uint32_t request[BOC_REQUEST_WORDS] = {0}, i;

    request[BOC_USER_NETWORK] = 1 + below(2);
    request[BOC_USER_SSI] = below(9);
    request[BOC_REQUEST_SERVICE] = below(20) ? 1 + below(3) : 0;
    request[BOC_DESTINATION] = BOC_TO_IDENTITY + below(2);
    if (request[BOC_DESTINATION] == BOC_TO_IDENTITY) {
        request[BOC_NETWORK] = 1 + below(2);
        request[BOC_SSI] = below(20);
    } else {
        request[BOC_LENGTH] = 1 + below(2);
        for (i = 0; i < request[BOC_LENGTH]; i++)
            request[BOC_DIGITS + i] = below(2) ? 1 : below(BOC_DIGIT_PLUS + 1);
    }
    request[BOC_GROUP_GIVEN] = below(2);
    if (request[BOC_GROUP_GIVEN]) {
        request[BOC_GROUP_NETWORK] = 1 + below(2);
        request[BOC_GROUP_SSI] = below(12);
    }
    lend(0);
    tell(DECIDE, boc_decide(archive, held, request, BOC_REQUEST_WORDS, &decision, &entry, &place));
    lend(0);
    tell(IN_PLACE, boc_decide_in_place(archive, held, request, BOC_REQUEST_WORDS, &decision, &entry, &place));
}

/* The calls on an archive. */
static void look(void)
{
    uint32_t network = 1 + below(2), ssi = below(20) ? below(9) : BOC_NETWORK_LIMIT, part = 1 + below(2);
    uint32_t definition = below(BOC_REMOVAL + 1), delivery = below(2), acknowledgement = delivery * below(2);

    ask();
    lend(0);
    tell(ENTRY, boc_entry(archive, held, below(40), key, BOC_KEY_WORDS, &length, &day, &entry, &place));
    lend(below(4) ? BOC_PDU_BYTES : below(30));
    tell(RESTORE, boc_restore(archive, held, network, ssi, part, out, room, &length, &day, &entry, &place));
    lend(below(4) ? BOC_PDU_BYTES : below(30));
    tell(RELOAD, boc_reload(archive, held, network, ssi, part, definition, delivery, acknowledgement, out, room,
                            &length, &entry, &place));
    lend(below(4) ? BOC_PDU_BYTES : below(30));
    tell(EXTERNAL, boc_reload_external(archive, held, network, ssi, definition, delivery, acknowledgement, out, room,
                                       &length, &entry, &place));
    lend(below(4) ? BOC_CONTENTS_BYTES : below(100));
    tell(CONTENTS, boc_contents(archive, held, out, room, &length, &entry, &place));
}

/* The same on an archive with a bit changed; and it captures nothing. */
static void look_at_spoilt(void)
{
    size_t at = change_bit(archive, 8 * held), before = held;

    look();
    lend(0);
    tell(CAPTURE, boc_capture(archive, held, pdu, bytes_for(bits), bits, 1, out, room, &length, &entry, &place));
    archive[at / 8] ^= (uint8_t)(0x80 >> at % 8);
    held = below((uint32_t)held);
    look();
    held = before;
}

int main(void)
{
    int round, failed = 0;
    enum call call;

    if (boc_empty(1, archive, sizeof archive, &held) != BOC_OK)
        return 1;
    for (round = 0; round < ROUNDS; round++) {
        make_record();
        if (!below(8))
            spoil_record();
        write_record();
        if (bits == 0)
            continue;
        read_spoilt();
        if (!below(10))
            change_bit(pdu, 8 * bytes_for(bits));
        capture();
        look();
        if (!below(8))
            look_at_spoilt();
    }
    for (call = READ; call < CALLS; call++) {
        uint32_t number;

        printf("%s:", told[call].name);
        for (number = 0; number < NUMBERS; number++) {
            if (told[call].given[number] != 0)
                printf(" %u given %lu times,", (unsigned)number, told[call].given[number]);
            if ((told[call].can >> number & 1) != (told[call].given[number] != 0)) {
                printf(" %u,", (unsigned)number);
                failed = 1;
            }
        }
        printf(" sum %016llx\n", (unsigned long long)told[call].sum);
    }
    return failed;
}
