/*
 * For valgrind: every buffer and number that a call writes comes from malloc, as long as it has to be, and nothing was
 * written to it; everything that comes back is compared. Writes and reads records of every PDU with few and with many
 * entries, captures the parts among them, finds them by their index, restores, reloads and lists them, decides calls,
 * and sets and reads a terminal's table. Ends with status 1 if something differs; valgrind tells of a bit that was
 * never written, and of a byte outside.
 */
#include <stdio.h>
#include <stdlib.h>
#include <string.h>

#include "boc.h"

enum { HOME = 1, DAY = 300 };

static size_t bytes_for(size_t bits) { return (bits + 7) / 8; }

static void *fresh(size_t bytes)
{
    void *memory = malloc(bytes);

    if (memory == NULL)
        exit(1);
    return memory;
}

static void expect(const char *what, int right)
{
    if (!right) {
        fprintf(stderr, "unwritten: %s\n", what);
        exit(1);
    }
}

/* What stands behind the pointers of a call. */
struct behind {
    size_t number, entry, place;
    uint32_t decision, day;
};

/* ---- Records ----------------------------------------------------------------------------------------------------- */

static const struct kind {
    uint32_t type, result;
    int users, services, numbers;
} kinds[] = {
    {BOC_DEFINE, 0, 1, 1, 0},
    {BOC_DEFINE_ACK, 0, 1, 0, 0},
    {BOC_DEFINE_EXTERNAL, 0, 1, 1, 1},
    {BOC_DEFINE_USER, 0, 0, 1, 0},
    {BOC_DEFINE_USER_ACK, 0, 0, 0, 0},
    {BOC_DEFINE_EXTERNAL_USER, 0, 0, 1, 0},
    {BOC_INTERROGATE, 0, 1, 0, 0},
    {BOC_INTERROGATE_ACK, BOC_RESULT_IDENTITIES, 1, 1, 0},
    {BOC_INTERROGATE_ACK, BOC_RESULT_NUMBERS, 1, 1, 1},
    {BOC_CALL_BARRED, 0, 0, 0, 0},
};

/* A list with so many entries, every second with an extension; entries differ. */
static void fill_identities(uint32_t *record, size_t list, uint32_t count, uint32_t ssi)
{
    uint32_t i;

    record[list] = count;
    for (i = 0; i < count; i++) {
        uint32_t *entry = record + boc_identity_at(list, i);

        entry[BOC_ENTRY_SSI] = ssi + 1000 * i;
        entry[BOC_ENTRY_EXTENSION_PRESENT] = i % 2;
        entry[BOC_ENTRY_EXTENSION] = i % 2 * 77;
    }
}

/* A list with so many numbers of 1 to 24 digits. */
static void fill_numbers(uint32_t *record, size_t list, uint32_t count)
{
    uint32_t i, digit;

    record[list] = count;
    for (i = 0; i < count; i++) {
        uint32_t *entry = record + boc_number_at(list, i);

        entry[BOC_ENTRY_LENGTH] = 1 + 23 * i / 7;
        for (digit = 0; digit < entry[BOC_ENTRY_LENGTH]; digit++)
            entry[BOC_ENTRY_DIGITS + digit] = (i + digit) % 13;
    }
}

/* The record of a kind with so many entries in each of its lists, for one user of this SSI. */
static void make_record(uint32_t *record, const struct kind *kind, uint32_t count, uint32_t ssi)
{
    memset(record, 0, BOC_RECORD_WORDS * sizeof *record);
    record[BOC_PDU_TYPE] = kind->type;
    record[BOC_RESULT] = kind->result;
    if (kind->users)
        fill_identities(record, BOC_AFFECTED, 1, ssi);
    if (kind->type == BOC_INTERROGATE)
        record[BOC_INTERROGATION_TYPE] = 3;
    if (!kind->services)
        return;
    record[BOC_SERVICE_COUNT] = 1 + count % BOC_SERVICE_PLACES;
    fill_identities(record, BOC_GROUPS, count, 500);
    if (kind->numbers) {
        fill_numbers(record, BOC_RESTRICTED_NUMBERS, count);
        fill_numbers(record, BOC_EXCEPTED_NUMBERS, count);
    } else {
        fill_identities(record, BOC_RESTRICTED, count, 100);
        fill_identities(record, BOC_EXCEPTIONS, count, 150);
    }
}

/* The PDU of a record, in as many bytes as it has; read again, it is the record. */
static uint8_t *write_and_read(const uint32_t *record, size_t *bits)
{
    uint8_t *out = fresh(BOC_PDU_BYTES), *pdu;
    uint32_t *again = fresh(BOC_RECORD_WORDS * sizeof *again);
    struct behind *behind = fresh(sizeof *behind);

    expect("boc_write", boc_write(record, BOC_RECORD_WORDS, out, BOC_PDU_BYTES, &behind->number) == BOC_OK);
    *bits = behind->number;
    pdu = fresh(bytes_for(*bits));
    expect("boc_write, exactly", boc_write(record, BOC_RECORD_WORDS, pdu, bytes_for(*bits), &behind->number) == BOC_OK);
    expect("the same bytes", memcmp(out, pdu, bytes_for(*bits)) == 0);
    expect("boc_read", boc_read(pdu, bytes_for(*bits), *bits, again, BOC_RECORD_WORDS, &behind->place) == BOC_OK);
    expect("the same record", memcmp(record, again, BOC_RECORD_WORDS * sizeof *again) == 0);
    expect("boc_read, a bit short",
           boc_read(pdu, bytes_for(*bits), *bits - 1, again, BOC_RECORD_WORDS, &behind->place) != BOC_OK);
    expect("a place", behind->place <= *bits || behind->place == BOC_NOWHERE);
    free(out);
    free(again);
    free(behind);
    return pdu;
}

/* ---- Archives ---------------------------------------------------------------------------------------------------- */

static uint8_t *archive;
static size_t archive_len;

/* The archive becomes the bytes of a longer buffer, in exactly as many. */
static void keep(uint8_t *buffer, size_t length)
{
    free(archive);
    archive = memcpy(fresh(length), buffer, length);
    archive_len = length;
    free(buffer);
}

static void capture(const uint8_t *pdu, size_t bits)
{
    uint8_t *out = fresh(BOC_ARCHIVE_BYTES);
    struct behind *behind = fresh(sizeof *behind);

    expect("boc_capture",
           boc_capture(archive, archive_len, pdu, bytes_for(bits), bits, DAY, out, BOC_ARCHIVE_BYTES,
                       &behind->number, &behind->entry, &behind->place) == BOC_OK);
    keep(out, behind->number);
    free(behind);
}

/* The last entry by its index: this user and part of the home network, and so many bits. None is after it. */
static void find_and_compare(size_t index, uint32_t ssi, uint32_t part, size_t bits)
{
    uint32_t *key = fresh(BOC_KEY_WORDS * sizeof *key);
    struct behind *behind = fresh(sizeof *behind);

    expect("boc_entry",
           boc_entry(archive, archive_len, index, key, BOC_KEY_WORDS, &behind->number, &behind->day, &behind->entry,
                     &behind->place) == BOC_OK);
    expect("the same key", key[BOC_KEY_NETWORK] == HOME && key[BOC_KEY_SSI] == ssi && key[BOC_KEY_PART] == part);
    expect("the same length and day", behind->number == bits && behind->day == DAY);
    free(key);
    key = fresh(BOC_KEY_WORDS * sizeof *key);
    expect("boc_entry, the next",
           boc_entry(archive, archive_len, index + 1, key, BOC_KEY_WORDS, &behind->number, &behind->day,
                     &behind->entry, &behind->place) == BOC_NOT_HELD);
    expect("no entry and no place", behind->entry == BOC_NOWHERE && behind->place == BOC_NOWHERE);
    free(key);
    free(behind);
}

static void restore_and_compare(uint32_t ssi, uint32_t part, const uint8_t *pdu, size_t bits)
{
    uint8_t *out = fresh(bytes_for(bits));
    struct behind *behind = fresh(sizeof *behind);

    expect("boc_restore",
           boc_restore(archive, archive_len, HOME, ssi, part, out, bytes_for(bits), &behind->number, &behind->day,
                       &behind->entry, &behind->place) == BOC_OK);
    expect("the same bits and day",
           behind->number == bits && behind->day == DAY && memcmp(out, pdu, bytes_for(bits)) == 0);
    free(out);
    free(behind);
}

/* What is reloaded has the words of the part but for the figures. */
static void reload_and_compare(uint32_t ssi, uint32_t part, const uint32_t *record)
{
    uint8_t *out = fresh(BOC_PDU_BYTES);
    uint32_t *again = fresh(BOC_RECORD_WORDS * sizeof *again);
    struct behind *behind = fresh(sizeof *behind);
    uint32_t answer;

    if (part == BOC_NUMBER_PART)
        answer = boc_reload_external(archive, archive_len, HOME, ssi, BOC_REPLACEMENT, 1, 1, out, BOC_PDU_BYTES,
                                     &behind->number, &behind->entry, &behind->place);
    else
        answer = boc_reload(archive, archive_len, HOME, ssi, part, BOC_REPLACEMENT, 1, 1, out, BOC_PDU_BYTES,
                            &behind->number, &behind->entry, &behind->place);
    expect("boc_reload", answer == BOC_OK);
    expect("boc_read of it",
           boc_read(out, bytes_for(behind->number), behind->number, again, BOC_RECORD_WORDS, &behind->place) == BOC_OK);
    expect("the same lists",
           memcmp(record + BOC_SERVICE_COUNT, again + BOC_SERVICE_COUNT,
                  (BOC_DELIVERY - BOC_SERVICE_COUNT) * sizeof *again) == 0);
    free(out);
    free(again);
    free(behind);
}

/* A call to identity 1/100 or number 0, which the part restricts if it has entries; it has no group. */
static void decide(uint32_t ssi, uint32_t part, uint32_t count)
{
    uint32_t request[BOC_REQUEST_WORDS] = {HOME, ssi, BOC_SERVICE_SPEECH}, decision;
    struct behind *behind = fresh(sizeof *behind);

    request[BOC_DESTINATION] = part == BOC_NUMBER_PART ? BOC_TO_NUMBER : BOC_TO_IDENTITY;
    request[BOC_NETWORK] = part == BOC_NUMBER_PART ? 0 : HOME;
    request[BOC_SSI] = part == BOC_NUMBER_PART ? 0 : 100;
    request[BOC_LENGTH] = part == BOC_NUMBER_PART;
    expect("boc_decide",
           boc_decide(archive, archive_len, request, BOC_REQUEST_WORDS, &behind->decision, &behind->entry,
                      &behind->place) == BOC_OK);
    if (part == BOC_NUMBER_PART && count > 0)
        expect("excepted", behind->decision == BOC_ALLOWED);
    else
        expect("barred", behind->decision == (count > 0 ? BOC_BARRED_DESTINATION : BOC_BARRED_SERVICE));
    decision = behind->decision;
    free(behind);
    behind = fresh(sizeof *behind);
    expect("boc_decide_in_place",
           boc_decide_in_place(archive, archive_len, request, BOC_REQUEST_WORDS, &behind->decision, &behind->entry,
                               &behind->place) == BOC_OK);
    expect("the same decision", behind->decision == decision);
    free(behind);
}

static void list(size_t entries)
{
    uint8_t *text = fresh(BOC_CONTENTS_BYTES);
    struct behind *behind = fresh(sizeof *behind);
    size_t i, lines = 0;

    expect("boc_contents",
           boc_contents(archive, archive_len, text, BOC_CONTENTS_BYTES, &behind->number, &behind->entry,
                        &behind->place) == BOC_OK);
    for (i = 0; i < behind->number; i++)
        lines += text[i] == '\n';
    expect("a line for each entry", lines == entries + 1);
    expect("boc_contents, a byte short",
           boc_contents(archive, archive_len - 1, text, BOC_CONTENTS_BYTES, &behind->number, &behind->entry,
                        &behind->place) == BOC_ARCHIVE);
    expect("no entry and no place", behind->entry == BOC_NOWHERE && behind->place == BOC_NOWHERE);
    free(text);
    free(behind);
}

static void use_terminal(void)
{
    uint8_t *table = fresh(BOC_TABLE_BYTES), *text = fresh(BOC_TABLE_TEXT_BYTES);
    size_t *length = fresh(sizeof *length), i;
    char line[32];

    expect("boc_terminal_reset", boc_terminal_reset(table, BOC_TABLE_BYTES) == BOC_OK);
    for (i = 0; i < 256; i++) {
        snprintf(line, sizeof line, "AT+CTSP=%zu,3,%zu\r", i % 4, i);
        expect("a set line", boc_terminal_line((uint8_t *)line, strlen(line), table, BOC_TABLE_BYTES, text, 0,
                                               length) == BOC_OK && *length == 0);
        expect("a PID", table[BOC_TABLE_SDS_TL + i] == i % 4);
    }
    strcpy(line, "AT+CTSP?\r");
    expect("the read form", boc_terminal_line((uint8_t *)line, strlen(line), table, BOC_TABLE_BYTES, text,
                                              BOC_TABLE_TEXT_BYTES, length) == BOC_OK);
    expect("its last line", *length > 9 && memcmp(text + *length - 9, "3,3,255\r\n", 9) == 0);
    free(table);
    free(text);
    free(length);
}

int main(void)
{
    uint32_t *record = fresh(BOC_RECORD_WORDS * sizeof *record), count;
    size_t i, bits, length, entries = 0;
    uint8_t *pdu = fresh(BOC_ARCHIVE_BYTES);

    expect("boc_empty", boc_empty(HOME, pdu, BOC_ARCHIVE_BYTES, &length) == BOC_OK);
    keep(pdu, length);
    for (count = 0; count <= BOC_LIST_PLACES; count++) {
        for (i = 0; i < sizeof kinds / sizeof kinds[0]; i++) {
            make_record(record, &kinds[i], count, count + 1);
            pdu = write_and_read(record, &bits);
            if (kinds[i].result != 0) {
                capture(pdu, bits);
                find_and_compare(entries, count + 1, kinds[i].result, bits);
                restore_and_compare(count + 1, kinds[i].result, pdu, bits);
                reload_and_compare(count + 1, kinds[i].result, record);
                decide(count + 1, kinds[i].result, count);
                entries++;
            }
            free(pdu);
        }
    }
    list(entries);
    use_terminal();
    free(archive);
    free(record);
    return 0;
}
