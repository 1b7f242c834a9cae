/*
 * A backtrace goes on above the library: lends each call memory that may not be read or written, and looks from within
 * the fault whether the frame above the call is seen, by the C library's backtrace. Ends with status 1 if one is not.
 */
#define _GNU_SOURCE
#include <execinfo.h>
#include <setjmp.h>
#include <signal.h>
#include <stdio.h>
#include <sys/mman.h>

#include "boc.h"

enum { FRAMES = 64, USER = 5, DAY = 300 };

/* Profile A of the user as a PDU of 138 bits, and an archive that holds it. */
static const uint8_t pdu[] = {0x49, 0x82, 0x00, 0x00, 0x0a, 0x21, 0x21, 0x20, 0x00,
                              0x0c, 0x80, 0x00, 0x0c, 0x70, 0x80, 0x00, 0x4b, 0x00};
static const size_t bits = 138;
static uint8_t archive[64], out[64];
static size_t archive_len, number, entry, place;
static uint32_t record[BOC_RECORD_WORDS], decision, day;
static const uint32_t request[BOC_REQUEST_WORDS] = {1, USER, BOC_SERVICE_SPEECH, BOC_TO_IDENTITY};

/* A terminal's question, and a table to be written whole, of MT only. */
static const uint8_t ask[] = {'A', 'T', '+', 'C', 'T', 'S', 'P', '?', '\r'};
static uint8_t table[BOC_TABLE_BYTES];

/* Memory that may not be touched. */
static void *closed;
enum { CLOSED_BYTES = 1 << 16 };

static uint32_t reads(void) { return boc_read(closed, sizeof pdu, bits, record, BOC_RECORD_WORDS, &place); }
static uint32_t reads_to(void) { return boc_read(pdu, sizeof pdu, bits, closed, BOC_RECORD_WORDS, &place); }
static uint32_t writes(void) { return boc_write(closed, BOC_RECORD_WORDS, out, sizeof out, &number); }
static uint32_t writes_to(void) { return boc_write(record, BOC_RECORD_WORDS, closed, CLOSED_BYTES, &number); }
static uint32_t empties_to(void) { return boc_empty(1, closed, CLOSED_BYTES, &number); }
static uint32_t captures(void)
{
    return boc_capture(archive, archive_len, closed, sizeof pdu, bits, DAY, out, sizeof out, &number, &entry, &place);
}
static uint32_t captures_to(void)
{
    return boc_capture(archive, archive_len, pdu, sizeof pdu, bits, DAY, closed, CLOSED_BYTES, &number, &entry, &place);
}
static uint32_t gives_entry(void)
{
    return boc_entry(closed, archive_len, 0, record, BOC_KEY_WORDS, &number, &day, &entry, &place);
}
static uint32_t gives_entry_to(void)
{
    return boc_entry(archive, archive_len, 0, closed, BOC_KEY_WORDS, &number, &day, &entry, &place);
}
static uint32_t restores_to(void)
{
    return boc_restore(archive, archive_len, 1, USER, BOC_IDENTITY_PART, closed, CLOSED_BYTES, &number, &day,
                       &entry, &place);
}
static uint32_t reloads_to(void)
{
    return boc_reload(archive, archive_len, 1, USER, BOC_IDENTITY_PART, BOC_ADDITION, 0, 0, closed, CLOSED_BYTES,
                      &number, &entry, &place);
}
static uint32_t reloads_external(void)
{
    return boc_reload_external(closed, archive_len, 1, USER, BOC_ADDITION, 0, 0, out, sizeof out, &number,
                               &entry, &place);
}
static uint32_t decides_in_place(void)
{
    return boc_decide_in_place(closed, archive_len, request, BOC_REQUEST_WORDS, &decision, &entry, &place);
}
static uint32_t decides(void)
{
    return boc_decide(closed, archive_len, request, BOC_REQUEST_WORDS, &decision, &entry, &place);
}
static uint32_t lists_to(void)
{
    return boc_contents(archive, archive_len, closed, CLOSED_BYTES, &number, &entry, &place);
}

static uint32_t resets(void) { return boc_terminal_reset(closed, BOC_TABLE_BYTES); }
static uint32_t takes_line(void)
{
    return boc_terminal_line(ask, sizeof ask, closed, BOC_TABLE_BYTES, out, sizeof out, &number);
}
static uint32_t tells_table_to(void)
{
    return boc_terminal_line(ask, sizeof ask, table, sizeof table, closed, CLOSED_BYTES, &number);
}

static const struct {
    const char *name;
    uint32_t (*call)(void);
} calls[] = {
    {"boc_read, PDU", reads},         {"boc_read, record", reads_to},   {"boc_write, record", writes},
    {"boc_write, buffer", writes_to}, {"boc_empty", empties_to},        {"boc_capture, PDU", captures},
    {"boc_capture, buffer", captures_to}, {"boc_entry, archive", gives_entry}, {"boc_entry, key", gives_entry_to},
    {"boc_restore", restores_to}, {"boc_reload", reloads_to},
    {"boc_reload_external", reloads_external}, {"boc_decide", decides}, {"boc_contents", lists_to},
    {"boc_decide_in_place", decides_in_place}, {"boc_terminal_reset", resets},
    {"boc_terminal_line, table", takes_line}, {"boc_terminal_line, buffer", tells_table_to},
};

static sigjmp_buf fault;
static void *above;
static volatile sig_atomic_t seen;

static void look(int signal)
{
    void *frames[FRAMES];
    int i, count = backtrace(frames, FRAMES);

    (void)signal;
    for (i = 0; i < count; i++)
        if (frames[i] == above)
            seen = 1;
    siglongjmp(fault, 1);
}

/* Makes a call, which faults; `above` is where this returns to, so its frame is the one that must be seen. */
static __attribute__((noinline)) uint32_t make(uint32_t (*call)(void))
{
    uint32_t answer;

    above = __builtin_return_address(0);
    answer = call();
    return answer + 1;
}

/* Is the frame above a call seen from its fault? */
static int is_seen(const char *name, uint32_t (*call)(void))
{
    seen = 0;
    if (sigsetjmp(fault, 1) == 0)
        printf("backtrace: %s faults nowhere and answers %u\n", name, (unsigned)make(call) - 1);
    else if (!seen)
        printf("backtrace: %s: the frame above is not seen\n", name);
    return seen;
}

int main(void)
{
    static uint8_t empty[8];
    struct sigaction action = {0};
    size_t i, length;
    int failed = 0;

    closed = mmap(NULL, CLOSED_BYTES, PROT_NONE, MAP_PRIVATE | MAP_ANONYMOUS, -1, 0);
    action.sa_handler = look;
    if (closed == MAP_FAILED || sigaction(SIGSEGV, &action, NULL) != 0 ||
        boc_read(pdu, sizeof pdu, bits, record, BOC_RECORD_WORDS, &place) != BOC_OK ||
        boc_empty(1, empty, sizeof empty, &length) != BOC_OK ||
        boc_capture(empty, length, pdu, sizeof pdu, bits, DAY, archive, sizeof archive, &archive_len, &entry, &place) !=
            BOC_OK)
        return 1;
    for (i = 0; i < sizeof calls / sizeof calls[0]; i++)
        if (!is_seen(calls[i].name, calls[i].call))
            failed = 1;
    return failed;
}
