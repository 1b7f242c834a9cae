/*
 * A slice of length 0 may have any pointer: lends each slice of each call as NULL with length 0, and as a pointer that
 * may not be read or written, and looks at the answer. Ends with status 1 if one is not the expected one.
 */
#define _DEFAULT_SOURCE
#include <stdio.h>
#include <sys/mman.h>

#include "boc.h"

enum { HOME = 1, USER = 5, DAY = 300, ROOM = 64 };

/* Profile A of the user as a PDU. */
static const uint8_t pdu[] = {0x49, 0x82, 0x00, 0x00, 0x0a, 0x21, 0x21, 0x20, 0x00,
                              0x0c, 0x80, 0x00, 0x0c, 0x70, 0x80, 0x00, 0x4b, 0x00};
static const size_t bits = 138;
/* A number part of the user: all services, and no list has entries. */
static const uint8_t number_part[] = {0x49, 0x82, 0x00, 0x00, 0x0a, 0x41, 0x00, 0x00};
static const size_t number_bits = 63;
/* A CALL BARRED, which has neither users nor services nor lists. */
static const uint8_t call_barred[] = {0x49, 0xb0};
static const size_t call_barred_bits = 13;
/* A terminal's question, without a zero byte at its end. */
static const uint8_t ask[] = {'A', 'T', '+', 'C', 'T', 'S', 'P', '?', '\r'};

static int failed;

static void expect(const char *what, uint32_t answer, uint32_t expected)
{
    if (answer != expected) {
        fprintf(stderr, "zero_length: %s answers %u, not %u\n", what, (unsigned)answer, (unsigned)expected);
        failed = 1;
    }
}

/* Every call with each of its slices as nothing at a pointer. */
static void lend(void *none)
{
    uint32_t record[BOC_RECORD_WORDS], barred[BOC_RECORD_WORDS];
    uint32_t request[BOC_REQUEST_WORDS] = {HOME, USER, BOC_SERVICE_SPEECH, BOC_TO_IDENTITY};
    uint8_t empty[ROOM], archive[ROOM], both[ROOM], out[ROOM], table[BOC_TABLE_BYTES];
    uint32_t decision, day, key[BOC_KEY_WORDS];
    size_t empty_len, archive_len, both_len, n, entry, place;

    expect("boc_read", boc_read(pdu, sizeof pdu, bits, record, BOC_RECORD_WORDS, &place), BOC_OK);
    expect("boc_read, no bytes", boc_read(none, 0, 0, record, BOC_RECORD_WORDS, &place), BOC_SHORT);
    expect("boc_read, no bytes for 8 bits", boc_read(none, 0, 8, record, BOC_RECORD_WORDS, &place), BOC_FRAME);
    expect("boc_read, no words", boc_read(pdu, sizeof pdu, bits, none, 0, &place), BOC_RANGE);

    expect("boc_read, CALL BARRED",
           boc_read(call_barred, sizeof call_barred, call_barred_bits, barred, BOC_RECORD_WORDS, &place), BOC_OK);
    expect("boc_read, CALL BARRED, no words",
           boc_read(call_barred, sizeof call_barred, call_barred_bits, none, 0, &place), BOC_RANGE);
    expect("boc_write, CALL BARRED, no buffer", boc_write(barred, BOC_RECORD_WORDS, none, 0, &n), BOC_ROOM);

    expect("boc_write, no words", boc_write(none, 0, out, sizeof out, &n), BOC_RANGE);
    expect("boc_write, no buffer", boc_write(record, BOC_RECORD_WORDS, none, 0, &n), BOC_ROOM);

    expect("boc_empty", boc_empty(HOME, empty, sizeof empty, &empty_len), BOC_OK);
    expect("boc_empty, no buffer", boc_empty(HOME, none, 0, &n), BOC_ROOM);

    expect("boc_capture",
           boc_capture(empty, empty_len, pdu, sizeof pdu, bits, DAY, archive, sizeof archive, &archive_len, &entry,
                       &place),
           BOC_OK);
    expect("boc_capture, no archive",
           boc_capture(none, 0, pdu, sizeof pdu, bits, DAY, out, sizeof out, &n, &entry, &place), BOC_ARCHIVE);
    expect("boc_capture, no bytes",
           boc_capture(empty, empty_len, none, 0, 0, DAY, out, sizeof out, &n, &entry, &place), BOC_SHORT);
    expect("boc_capture, no buffer",
           boc_capture(empty, empty_len, pdu, sizeof pdu, bits, DAY, none, 0, &n, &entry, &place), BOC_ROOM);
    expect("boc_capture, nothing, and a day out of range",
           boc_capture(none, 0, none, 0, 0, BOC_DAY_LIMIT, none, 0, &n, &entry, &place), BOC_RANGE);

    expect("boc_entry", boc_entry(archive, archive_len, 0, key, BOC_KEY_WORDS, &n, &day, &entry, &place), BOC_OK);
    expect("boc_entry, no archive", boc_entry(none, 0, 0, key, BOC_KEY_WORDS, &n, &day, &entry, &place), BOC_ARCHIVE);
    expect("boc_entry, no words", boc_entry(archive, archive_len, 0, none, 0, &n, &day, &entry, &place), BOC_RANGE);
    expect("boc_entry, nothing", boc_entry(none, 0, 0, none, 0, &n, &day, &entry, &place), BOC_RANGE);

    expect("boc_restore, no archive",
           boc_restore(none, 0, HOME, USER, BOC_IDENTITY_PART, out, sizeof out, &n, &day, &entry, &place), BOC_ARCHIVE);
    expect("boc_restore, no buffer",
           boc_restore(archive, archive_len, HOME, USER, BOC_IDENTITY_PART, none, 0, &n, &day, &entry, &place),
           BOC_ROOM);

    expect("boc_reload",
           boc_reload(archive, archive_len, HOME, USER, BOC_IDENTITY_PART, BOC_REPLACEMENT, 1, 1, out, sizeof out, &n,
                      &entry, &place),
           BOC_OK);
    expect("boc_reload, no archive",
           boc_reload(none, 0, HOME, USER, BOC_IDENTITY_PART, BOC_REPLACEMENT, 1, 1, out, sizeof out, &n, &entry,
                      &place),
           BOC_ARCHIVE);
    expect("boc_reload, no buffer",
           boc_reload(archive, archive_len, HOME, USER, BOC_IDENTITY_PART, BOC_REPLACEMENT, 1, 1, none, 0, &n, &entry,
                      &place),
           BOC_ROOM);

    expect("boc_capture, number part",
           boc_capture(archive, archive_len, number_part, sizeof number_part, number_bits, DAY, both, sizeof both,
                       &both_len, &entry, &place),
           BOC_OK);
    expect("boc_reload_external",
           boc_reload_external(both, both_len, HOME, USER, BOC_REMOVAL, 1, 1, out, sizeof out, &n, &entry, &place),
           BOC_OK);
    expect("boc_reload_external, no archive",
           boc_reload_external(none, 0, HOME, USER, BOC_REMOVAL, 1, 1, out, sizeof out, &n, &entry, &place),
           BOC_ARCHIVE);
    expect("boc_reload_external, no buffer",
           boc_reload_external(both, both_len, HOME, USER, BOC_REMOVAL, 1, 1, none, 0, &n, &entry, &place), BOC_ROOM);

    expect("boc_decide, no archive",
           boc_decide(none, 0, request, BOC_REQUEST_WORDS, &decision, &entry, &place), BOC_ARCHIVE);
    expect("boc_decide, no words",
           boc_decide(archive, archive_len, none, 0, &decision, &entry, &place), BOC_RANGE);
    expect("boc_decide_in_place, no archive",
           boc_decide_in_place(none, 0, request, BOC_REQUEST_WORDS, &decision, &entry, &place), BOC_ARCHIVE);
    expect("boc_decide_in_place, no words",
           boc_decide_in_place(archive, archive_len, none, 0, &decision, &entry, &place), BOC_RANGE);

    expect("boc_contents, no archive", boc_contents(none, 0, out, sizeof out, &n, &entry, &place), BOC_ARCHIVE);
    expect("boc_contents, no buffer", boc_contents(archive, archive_len, none, 0, &n, &entry, &place), BOC_ROOM);

    expect("boc_terminal_reset, no table", boc_terminal_reset(none, 0), BOC_RANGE);
    expect("boc_terminal_reset", boc_terminal_reset(table, sizeof table), BOC_OK);
    expect("boc_terminal_line, no line",
           boc_terminal_line(none, 0, table, sizeof table, out, sizeof out, &n), BOC_SYNTAX);
    expect("boc_terminal_line, no table",
           boc_terminal_line(ask, sizeof ask, none, 0, out, sizeof out, &n), BOC_RANGE);
    expect("boc_terminal_line, no text",
           boc_terminal_line(ask, sizeof ask, table, sizeof table, none, 0, &n), BOC_OK);
    table[0] = BOC_PROFILE_MT;
    expect("boc_terminal_line, no buffer",
           boc_terminal_line(ask, sizeof ask, table, sizeof table, none, 0, &n), BOC_ROOM);
}

int main(void)
{
    void *closed = mmap(NULL, 1 << 12, PROT_NONE, MAP_PRIVATE | MAP_ANONYMOUS, -1, 0);

    if (closed == MAP_FAILED)
        return 1;
    lend(NULL);
    lend(closed);
    return failed;
}
