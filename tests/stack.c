/*
 * The most stack that each call uses: runs it on a painted stack of its own and looks how far down the paint is gone.
 * Each call is tried on its largest inputs, with every number as large as it may be: the longest PDUs of every kind,
 * for one user and for eight; archives of 512 entries and of 65,536 bytes, asked about their last entry. It is tried
 * accepted, and refused as late as it can be: at the last element, for the last byte of room, for the last entry. A
 * terminal's lines are tried at their longest, on a table of which every place is written.
 * Prints a Markdown table; ends with status 1 if an answer is not the one that is expected, or a call uses more than
 * its limit: 5 KiB for boc_decide, which unpacks a record, 6 KiB for either reload, which makes a second one of it, and
 * 1 KiB for every other call. With a word behind its name it makes the same calls on the stack that it has and measures
 * nothing, for valgrind, which follows no stack of one's own.
 */
#define _XOPEN_SOURCE 700
#include <stdio.h>
#include <string.h>
#include <ucontext.h>

#include "boc.h"

enum { STACK_BYTES = 1 << 17, SMALL = 1024, ONE_RECORD = 5 * 1024, TWO_RECORDS = 6 * 1024, PAINT = 0xa5 };

/* The largest network and SSI, of which each has eight digits in a listing; and the digit of every number. */
enum { TOP = BOC_NETWORK_LIMIT - 1, DIGIT = 2 };

/* What the calls are lent. */
static uint32_t record[BOC_RECORD_WORDS], request[BOC_REQUEST_WORDS], user, part, definition, home, decision;
static uint32_t day = BOC_DAY_LIMIT - 1, found_day;
static uint32_t key[BOC_KEY_WORDS];
static uint8_t pdu[BOC_PDU_BYTES + 1], archive[BOC_ARCHIVE_BYTES + 1], out[BOC_ARCHIVE_BYTES];
static size_t bits, archive_len, entry, key_words = BOC_KEY_WORDS, room = sizeof out, number, at_entry, at_place;

static uint8_t table[BOC_TABLE_BYTES];
static size_t table_len = sizeof table;
static const char *line;

static size_t bytes_for(size_t count) { return (count + 7) / 8; }

static uint32_t nothing(void) { return BOC_OK; }
static uint32_t reads(void)
{
    static uint32_t found[BOC_RECORD_WORDS];

    return boc_read(pdu, bytes_for(bits), bits, found, BOC_RECORD_WORDS, &at_place);
}
static uint32_t writes(void) { return boc_write(record, BOC_RECORD_WORDS, out, room, &number); }
static uint32_t empties(void) { return boc_empty(home, out, room, &number); }
static uint32_t captures(void)
{
    return boc_capture(archive, archive_len, pdu, bytes_for(bits), bits, day, out, room, &number, &at_entry,
                       &at_place);
}
static uint32_t gives_entry(void)
{
    return boc_entry(archive, archive_len, entry, key, key_words, &number, &found_day, &at_entry, &at_place);
}
static uint32_t restores(void)
{
    return boc_restore(archive, archive_len, TOP, user, part, out, room, &number, &found_day, &at_entry, &at_place);
}
static uint32_t reloads(void)
{
    return boc_reload(archive, archive_len, TOP, user, part, definition, 1, 1, out, room, &number, &at_entry,
                      &at_place);
}
static uint32_t reloads_external(void)
{
    return boc_reload_external(archive, archive_len, TOP, user, definition, 1, 1, out, room, &number, &at_entry,
                               &at_place);
}
static uint32_t decides(void)
{
    return boc_decide(archive, archive_len, request, BOC_REQUEST_WORDS, &decision, &at_entry, &at_place);
}
static uint32_t decides_in_place(void)
{
    return boc_decide_in_place(archive, archive_len, request, BOC_REQUEST_WORDS, &decision, &at_entry, &at_place);
}
static uint32_t lists(void) { return boc_contents(archive, archive_len, out, room, &number, &at_entry, &at_place); }
static uint32_t resets(void) { return boc_terminal_reset(table, table_len); }
static uint32_t takes_line(void)
{
    return boc_terminal_line((const uint8_t *)line, strlen(line), table, table_len, out, room, &number);
}

enum call {
    READ, WRITE, EMPTY, CAPTURE, ENTRY, RESTORE, RELOAD, RELOAD_EXTERNAL, DECIDE, DECIDE_IN_PLACE, CONTENTS,
    TERMINAL_RESET, TERMINAL_LINE, CALLS
};
static struct {
    const char *name;
    uint32_t (*call)(void);
    size_t limit, most;
} calls[CALLS] = {
    {"boc_read", reads, SMALL, 0},
    {"boc_write", writes, SMALL, 0},
    {"boc_empty", empties, SMALL, 0},
    {"boc_capture", captures, SMALL, 0},
    {"boc_entry", gives_entry, SMALL, 0},
    {"boc_restore", restores, SMALL, 0},
    {"boc_reload", reloads, TWO_RECORDS, 0},
    {"boc_reload_external", reloads_external, TWO_RECORDS, 0},
    {"boc_decide", decides, ONE_RECORD, 0},
    {"boc_decide_in_place", decides_in_place, SMALL, 0},
    {"boc_contents", lists, SMALL, 0},
    {"boc_terminal_reset", resets, SMALL, 0},
    {"boc_terminal_line", takes_line, SMALL, 0},
};

static _Alignas(16) unsigned char stack[STACK_BYTES];
static ucontext_t outside, inside;
static uint32_t (*measured)(void);
static uint32_t answer;
static size_t base;
static int failed, unmeasured;

static void enter(void) { answer = measured(); }

/* Bytes from the top of the stack to the lowest that was written. */
static size_t depth(uint32_t (*call)(void))
{
    size_t untouched = 0;

    if (unmeasured) {
        answer = call();
        return 0;
    }
    memset(stack, PAINT, sizeof stack);
    getcontext(&inside);
    inside.uc_stack.ss_sp = stack;
    inside.uc_stack.ss_size = sizeof stack;
    inside.uc_link = &outside;
    makecontext(&inside, enter, 0);
    measured = call;
    swapcontext(&outside, &inside);
    while (untouched < sizeof stack && stack[untouched] == PAINT)
        untouched++;
    return sizeof stack - untouched;
}

/* Says so, and fails, where a number is not the one that is expected. */
static void same(const char *what, size_t found, size_t expected)
{
    if (found != expected) {
        fprintf(stderr, "stack: %s: %zu, not %zu\n", what, found, expected);
        failed = 1;
    }
}

/* Measures a call that should answer so. */
static void expect(enum call call, uint32_t expected)
{
    size_t used;

    /* The first run is for what a first call alone does, such as finding memcpy. */
    calls[call].call();
    used = depth(calls[call].call) - base;
    same(calls[call].name, answer, expected);
    if (used > calls[call].most)
        calls[call].most = used;
}

/* ---- PDUs -------------------------------------------------------------------------------------------------------- */

/* The kinds of PDUs. The range types are of groups, restricted and excepted entries. */
static const struct kind {
    uint32_t type, result, definition, codes[3];
    size_t last;                /* the word of its last element */
    uint32_t of_pdu, of_record; /* what is answered if its last four bits are the other ones, or its last word is 15 */
} kinds[] = {
    {BOC_INTERROGATE, 0, 0, {0}, BOC_INTERROGATION_TYPE, BOC_VALUE, BOC_VALUE},
    {BOC_INTERROGATE_ACK, BOC_RESULT_FAILED, 0, {0}, BOC_SERVICES + 6, BOC_VALUE, BOC_VALUE},
    {BOC_INTERROGATE_ACK, BOC_RESULT_IDENTITIES, 0, {8, 8, 8}, BOC_EXCEPTIONS + 24, BOC_OK, BOC_OK},
    {BOC_INTERROGATE_ACK, BOC_RESULT_IDENTITIES, 0, {9, 9, 9}, BOC_EXCEPTIONS + 6, BOC_ENDS, BOC_ENDS},
    {BOC_INTERROGATE_ACK, BOC_RESULT_NUMBERS, 0, {8, 8, 8}, BOC_EXCEPTED_NUMBERS + 200, BOC_VALUE, BOC_VALUE},
    {BOC_INTERROGATE_ACK, BOC_RESULT_NUMBERS, 0, {8, 0, 0}, BOC_EXCEPTED_NUMBERS, BOC_VALUE, BOC_VALUE},
    {BOC_DEFINE, 0, BOC_REPLACEMENT, {8, 8, 8}, BOC_EXCEPTIONS + 24, BOC_OK, BOC_OK},
    {BOC_DEFINE, 0, BOC_REPLACEMENT, {9, 9, 9}, BOC_EXCEPTIONS + 6, BOC_ENDS, BOC_ENDS},
    {BOC_DEFINE, 0, BOC_REMOVAL, {0}, BOC_SERVICES + 6, BOC_VALUE, BOC_VALUE},
    {BOC_DEFINE_ACK, 0, 0, {0}, BOC_DEFINITION_RESULT, BOC_VALUE, BOC_VALUE},
    {BOC_DEFINE_EXTERNAL, 0, BOC_REPLACEMENT, {8, 8, 8}, BOC_EXCEPTED_NUMBERS + 200, BOC_VALUE, BOC_VALUE},
    {BOC_DEFINE_EXTERNAL, 0, BOC_REPLACEMENT, {8, 0, 0}, BOC_EXCEPTED_NUMBERS, BOC_VALUE, BOC_VALUE},
    {BOC_DEFINE_EXTERNAL, 0, BOC_REMOVAL, {0}, BOC_SERVICES + 6, BOC_VALUE, BOC_VALUE},
    {BOC_DEFINE_USER, 0, BOC_REPLACEMENT, {8, 8, 8}, BOC_EXCEPTIONS + 24, BOC_OK, BOC_OK},
    {BOC_DEFINE_USER, 0, BOC_REPLACEMENT, {9, 9, 9}, BOC_EXCEPTIONS + 6, BOC_ENDS, BOC_ENDS},
    {BOC_DEFINE_USER, 0, BOC_REMOVAL, {0}, BOC_SERVICES + 6, BOC_VALUE, BOC_VALUE},
    {BOC_DEFINE_USER_ACK, 0, 0, {0}, BOC_DISTRIBUTION_RESULT, BOC_VALUE, BOC_VALUE},
    {BOC_DEFINE_EXTERNAL_USER, 0, BOC_REPLACEMENT, {8, 8, 8}, BOC_EXCEPTIONS + 24, BOC_OK, BOC_OK},
    {BOC_DEFINE_EXTERNAL_USER, 0, BOC_REPLACEMENT, {9, 9, 9}, BOC_EXCEPTIONS + 6, BOC_ENDS, BOC_ENDS},
    {BOC_DEFINE_EXTERNAL_USER, 0, BOC_REMOVAL, {0}, BOC_SERVICES + 6, BOC_VALUE, BOC_VALUE},
    {BOC_CALL_BARRED, 0, 0, {0}, BOC_REJECTION_CAUSE, BOC_VALUE, BOC_VALUE},
};
enum { KINDS = sizeof kinds / sizeof kinds[0] };

static int is_part(const struct kind *kind) { return kind->result != 0; }

/* Is it a definition that is sent to a switch, for its affected users? */
static int is_for_switch(const struct kind *kind)
{
    return kind->type == BOC_DEFINE || kind->type == BOC_DEFINE_EXTERNAL;
}

/* Is it a definition that is sent to a user? */
static int is_for_user(const struct kind *kind)
{
    return kind->type == BOC_DEFINE_USER || kind->type == BOC_DEFINE_EXTERNAL_USER;
}

static int has_users(const struct kind *kind)
{
    return !is_for_user(kind) && kind->type != BOC_DEFINE_USER_ACK && kind->type != BOC_CALL_BARRED;
}

static void fill_identities(size_t list, uint32_t code, uint32_t ssi)
{
    uint32_t i, *entry;

    record[list] = code;
    for (i = 0; i < (code == BOC_FIRST_AND_LAST ? 2 : code); i++) {
        entry = record + boc_identity_at(list, i);
        entry[BOC_ENTRY_SSI] = ssi;
        entry[BOC_ENTRY_EXTENSION_PRESENT] = 1;
        entry[BOC_ENTRY_EXTENSION] = TOP;
    }
}

static void fill_numbers(size_t list, uint32_t code)
{
    uint32_t i, digit, *entry;

    record[list] = code;
    for (i = 0; i < code; i++) {
        entry = record + boc_number_at(list, i);
        entry[BOC_ENTRY_LENGTH] = BOC_DIGIT_PLACES;
        for (digit = 0; digit < BOC_DIGIT_PLACES; digit++)
            entry[BOC_ENTRY_DIGITS + digit] = DIGIT;
    }
}

/* The record of a kind, where it has users for so many of an SSI. */
static void prepare(const struct kind *kind, uint32_t users, uint32_t ssi)
{
    memset(record, 0, sizeof record);
    record[BOC_PDU_TYPE] = kind->type;
    if (has_users(kind))
        fill_identities(BOC_AFFECTED, users, ssi);
    switch (kind->type) {
    case BOC_INTERROGATE:
        record[BOC_INTERROGATION_TYPE] = 3;
        return;
    case BOC_DEFINE_ACK:
        record[BOC_DEFINITION_RESULT] = BOC_DEFINITION_CHANGED;
        return;
    case BOC_DEFINE_USER_ACK:
        record[BOC_DISTRIBUTION_RESULT] = BOC_DISTRIBUTION_FAILED;
        return;
    case BOC_CALL_BARRED:
        record[BOC_REJECTION_CAUSE] = BOC_CAUSE_DESTINATION;
        return;
    }
    record[BOC_RESULT] = kind->result;
    record[BOC_DELIVERY] = is_for_switch(kind);
    record[BOC_ACKNOWLEDGEMENT] = is_for_switch(kind) || is_for_user(kind);
    record[BOC_DEFINITION_TYPE] = kind->definition;
    record[BOC_SERVICE_COUNT] = BOC_SERVICE_PLACES;
    fill_identities(BOC_GROUPS, kind->codes[0], TOP);
    if (kind->result == BOC_RESULT_NUMBERS || kind->type == BOC_DEFINE_EXTERNAL) {
        fill_numbers(BOC_RESTRICTED_NUMBERS, kind->codes[1]);
        fill_numbers(BOC_EXCEPTED_NUMBERS, kind->codes[2]);
    } else {
        fill_identities(BOC_RESTRICTED, kind->codes[1], TOP);
        fill_identities(BOC_EXCEPTIONS, kind->codes[2], TOP);
    }
}

/* Makes the PDU of the record that was prepared. */
static void encode(void)
{
    same("boc_write, for a PDU", writes(), BOC_OK);
    bits = number;
    memset(pdu, 0, sizeof pdu);
    memcpy(pdu, out, bytes_for(bits));
}

/* Changes the four bits that end at a bit place. */
static void spoil(uint8_t *bytes, size_t end)
{
    size_t i;

    for (i = end - 4; i < end; i++)
        bytes[i / 8] ^= (uint8_t)(0x80 >> i % 8);
}

/* Writes the record that was prepared, accepted and refused. */
static void write_each_way(const struct kind *kind)
{
    static const size_t every = BOC_RECORD_WORDS - 1;
    uint32_t last = record[kind->last];

    record[kind->last] = 15;
    expect(WRITE, kind->of_record);
    record[kind->last] = last;
    /* The last word of all is a rejection cause or unused. */
    last = record[every];
    record[every] = 15;
    expect(WRITE, BOC_VALUE);
    record[every] = last;
    expect(WRITE, BOC_OK);
    room = bytes_for(number) - 1;
    expect(WRITE, BOC_ROOM);
    room = sizeof out;
}

/* Reads and captures what is in `pdu`; a refusal of reading is one of capture. */
static void read_and_capture(uint32_t read, uint32_t captured)
{
    expect(READ, read);
    expect(CAPTURE, read == BOC_OK ? captured : read);
}

/* Reads and captures the PDU as it is, which capture answers so; spoilt; with a bit more; and with a bit less. */
static void read_each_way(const struct kind *kind, uint32_t captured)
{
    uint8_t whole[sizeof pdu];

    memcpy(whole, pdu, sizeof pdu);
    read_and_capture(BOC_OK, captured);
    if (captured == BOC_OK) {
        room = number - 1;
        expect(CAPTURE, BOC_ROOM);
        room = sizeof out;
    }
    day++;
    expect(CAPTURE, BOC_RANGE);
    day--;
    spoil(pdu, bits);
    read_and_capture(kind->of_pdu, captured);
    memcpy(pdu, whole, sizeof pdu);
    bits++;
    read_and_capture(BOC_LEFT, captured);
    bits -= 2;
    pdu[bits / 8] &= (uint8_t)(0xff << (8 - bits % 8));
    read_and_capture(BOC_SHORT, captured);
    bits++;
    memcpy(pdu, whole, sizeof pdu);
}

/*
 * Every kind of PDU on an archive. A full one has room for a part of the last user in the place of the same part that
 * is no shorter, which is the last entry and has these bytes; an empty one has room for each.
 */
static void offer_each_kind(uint32_t held, size_t bytes)
{
    static const uint32_t users[] = {1, BOC_LIST_PLACES};
    const struct kind *kind;
    uint32_t filed;
    size_t i;

    for (kind = kinds; kind < kinds + KINDS; kind++) {
        for (i = 0; i < 2; i++) {
            prepare(kind, users[i], TOP);
            write_each_way(kind);
            encode();
            filed = held == 0 || (held == kind->result && bytes_for(bits) <= bytes) ? BOC_OK : BOC_ROOM;
            read_each_way(kind, users[i] == 1 && is_part(kind) ? filed : BOC_UNFIT);
        }
    }
}

/* ---- Archives ---------------------------------------------------------------------------------------------------- */

/* The archive with the part of a kind for one user: is there room for it? */
static int file(const struct kind *kind, uint32_t ssi)
{
    prepare(kind, 1, ssi);
    encode();
    if (captures() != BOC_OK)
        return 0;
    memcpy(archive, out, number);
    archive_len = number;
    return 1;
}

static void make_empty(void)
{
    home = TOP;
    expect(EMPTY, BOC_OK);
    memcpy(archive, out, number);
    archive_len = number;
}

/* The same part with the fewest entries that give it four digits of bits, or with none, which gives it three. */
static struct kind shorter(const struct kind *kind, int digits)
{
    static const uint32_t of_identities[3] = {8, 8, 3}, of_numbers[3] = {0, 8, 1}, none[3] = {0};
    const uint32_t *most = kind->result == BOC_RESULT_IDENTITIES ? of_identities : of_numbers;
    struct kind result = *kind;

    memcpy(result.codes, digits == 4 ? most : none, sizeof result.codes);
    return result;
}

/* The bytes that an entry of this kind takes. */
static size_t room_for(const struct kind *kind)
{
    enum { ENTRY = 11 };

    prepare(kind, 1, TOP);
    encode();
    return ENTRY + bytes_for(bits);
}

/*
 * The archive of 512 entries with the longest listing: home network, networks and SSIs of eight digits, days of five,
 * and bit lengths of four for as many of the last entries as there is room for. The last of all has this kind.
 */
static void make_many(const struct kind *kind)
{
    const struct kind four = shorter(kind, 4), three = shorter(kind, 3);
    const size_t each = room_for(&four), last = room_for(kind);
    size_t left;

    make_empty();
    for (left = BOC_ARCHIVE_ENTRIES - 1; left > 0; left--) {
        if (!file(archive_len + left * each + last <= BOC_ARCHIVE_BYTES ? &four : &three, (uint32_t)(TOP - left)))
            same("entries without room", left, 0);
    }
    if (!file(kind, TOP))
        same("entries without room", 1, 0);
}

/* The archive of as many parts of this kind as it can hold: 512, or what 65,536 bytes have room for. */
static void make_long(const struct kind *kind)
{
    uint32_t ssi = TOP;

    make_empty();
    while (file(kind, ssi))
        ssi--;
    expect(CAPTURE, BOC_ROOM);
}

/* A call of the user to a destination that no list has, which its last digit says; its group is none of the list. */
static void prepare_request(uint32_t destination)
{
    size_t i;

    memset(request, 0, sizeof request);
    request[BOC_USER_NETWORK] = TOP;
    request[BOC_USER_SSI] = TOP;
    request[BOC_REQUEST_SERVICE] = BOC_SERVICE_SHORT_DATA;
    request[BOC_DESTINATION] = destination;
    if (destination == BOC_TO_IDENTITY) {
        request[BOC_NETWORK] = TOP;
        request[BOC_SSI] = TOP - 1;
    } else {
        request[BOC_LENGTH] = BOC_DIGIT_PLACES;
        for (i = 0; i < BOC_DIGIT_PLACES; i++)
            request[BOC_DIGITS + i] = i + 1 < BOC_DIGIT_PLACES ? DIGIT : DIGIT + 1;
    }
    request[BOC_GROUP_GIVEN] = 1;
    request[BOC_GROUP_NETWORK] = TOP;
    request[BOC_GROUP_SSI] = TOP - 1;
}

/* Decides such a call, by each engine. */
static void decide(uint32_t destination, uint32_t decided)
{
    enum call call;

    for (call = DECIDE; call <= DECIDE_IN_PLACE; call++) {
        prepare_request(destination);
        expect(call, BOC_OK);
        same("the decision", decision, decided);
        request[BOC_GROUP_SSI] = BOC_NETWORK_LIMIT;
        expect(call, BOC_RANGE);
    }
}

/* Reloads the last entry: any list would be lost under a removal; what a replacement answers. */
static void reload_each_way(enum call call, uint32_t replaced)
{
    definition = BOC_REMOVAL;
    expect(call, BOC_LOSS);
    definition = BOC_REPLACEMENT;
    expect(call, replaced);
    if (replaced == BOC_OK) {
        room = bytes_for(number) - 1;
        expect(call, BOC_ROOM);
        room = sizeof out;
    }
}

/* The last entry by its index; the index after it; and a count of words out of range. */
static void give_entry_each_way(uint32_t held)
{
    const size_t count = (size_t)archive[3] << 8 | archive[4];

    entry = count - 1;
    expect(ENTRY, BOC_OK);
    same("the network", key[BOC_KEY_NETWORK], TOP);
    same("the SSI", key[BOC_KEY_SSI], TOP);
    same("the part", key[BOC_KEY_PART], held);
    same("the bits", number, bits);
    same("the day", found_day, day);
    entry = count;
    expect(ENTRY, BOC_NOT_HELD);
    key_words--;
    expect(ENTRY, BOC_RANGE);
    key_words++;
}

/* The calls that ask, about the last entry, one that is not held, and with numbers out of range. */
static void ask_each_way(const struct kind *kind)
{
    uint32_t held = kind->result, other = BOC_IDENTITY_PART + BOC_NUMBER_PART - held;

    give_entry_each_way(held);
    user = TOP;
    part = held;
    expect(RESTORE, BOC_OK);
    same("the day", found_day, day);
    room = bytes_for(number) - 1;
    expect(RESTORE, BOC_ROOM);
    room = sizeof out;
    reload_each_way(RELOAD, held == BOC_NUMBER_PART && kind->codes[1] != 0 ? BOC_LOSS : BOC_OK);
    if (held == BOC_NUMBER_PART)
        reload_each_way(RELOAD_EXTERNAL, BOC_OK);
    else
        expect(RELOAD_EXTERNAL, BOC_NOT_HELD);
    part = other;
    expect(RESTORE, BOC_NOT_HELD);
    expect(RELOAD, BOC_NOT_HELD);
    user = BOC_NETWORK_LIMIT;
    expect(RESTORE, BOC_RANGE);
    expect(RELOAD, BOC_RANGE);
    expect(RELOAD_EXTERNAL, BOC_RANGE);
    decide(held, BOC_BARRED_GROUP);
    decide(other, BOC_PART_NOT_HELD);
    expect(CONTENTS, BOC_OK);
    room = number - 1;
    expect(CONTENTS, BOC_ROOM);
    room = sizeof out;
}

/* Every call on an archive that breaks a rule. */
static void refuse_each(uint32_t held)
{
    user = TOP;
    part = held;
    prepare_request(held);
    expect(CAPTURE, BOC_ARCHIVE);
    expect(ENTRY, BOC_ARCHIVE);
    expect(RESTORE, BOC_ARCHIVE);
    expect(RELOAD, BOC_ARCHIVE);
    expect(RELOAD_EXTERNAL, BOC_ARCHIVE);
    expect(DECIDE, BOC_ARCHIVE);
    expect(DECIDE_IN_PLACE, BOC_ARCHIVE);
    expect(CONTENTS, BOC_ARCHIVE);
}

/* Every call on an archive whose last entry, the last user's, has this kind. */
static void use_each_way(const struct kind *kind)
{
    size_t last;

    ask_each_way(kind);
    archive_len++;
    refuse_each(kind->result);
    archive_len--;
    last = 8 * archive_len - (8 - bits % 8) % 8;
    if (kind->of_pdu != BOC_OK) {
        spoil(archive, last);
        refuse_each(kind->result);
        spoil(archive, last);
    }
}

/* A line's answer. */
static void take(const char *text, uint32_t expected)
{
    line = text;
    expect(TERMINAL_LINE, expected);
}

/* A terminal's table, of which every place is off the default, and the longest lines. */
static void use_terminal(void)
{
    table_len--;
    expect(TERMINAL_RESET, BOC_RANGE);
    take("AT+CTSP?\r", BOC_RANGE);
    table_len++;
    expect(TERMINAL_RESET, BOC_OK);
    take("AT+CTSP=003,003,255\r", BOC_OK);
    take("AT+CTSP=003,003,255,999\n", BOC_SYNTAX);
    take("AT+CTSP=003,003,256,999\r", BOC_FIELD);
    take("AT+CTSP=003,003,255,999\r", BOC_SURPLUS);
    memset(table, BOC_PROFILE_NEITHER, sizeof table);
    take("AT+CTSP?\r", BOC_OK);
    same("the longest text", number, BOC_TABLE_TEXT_BYTES);
    room = BOC_TABLE_TEXT_BYTES - 1;
    take("AT+CTSP?\r", BOC_ROOM);
    room = sizeof out;
}

int main(int argc, char **argv)
{
    const struct kind *kind;
    size_t i;

    (void)argv;
    unmeasured = argc > 1;
    depth(nothing);
    base = depth(nothing);
    make_empty();
    room = number - 1;
    expect(EMPTY, BOC_ROOM);
    home = BOC_NETWORK_LIMIT;
    expect(EMPTY, BOC_RANGE);
    room = sizeof out;
    offer_each_kind(0, 0);

    for (kind = kinds; kind < kinds + KINDS; kind++) {
        if (!is_part(kind))
            continue;
        make_many(kind);
        use_each_way(kind);
        offer_each_kind(kind->result, bytes_for(bits));
        make_long(kind);
        prepare(kind, 1, TOP);
        encode();
        use_each_way(kind);
    }

    use_terminal();

    if (unmeasured)
        return failed;
    printf("| call | bytes of stack | at most |\n|---|---|---|\n");
    for (i = 0; i < CALLS; i++) {
        printf("| `%s` | %zu | %zu |\n", calls[i].name, calls[i].most, calls[i].limit);
        if (calls[i].most > calls[i].limit) {
            fprintf(stderr, "stack: %s uses more than %zu bytes\n", calls[i].name, calls[i].limit);
            failed = 1;
        }
    }
    return failed;
}
