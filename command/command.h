/*
 * What the files of the command `boc` share: an archive in memory and the library's answers about it, the words of the
 * call, lines, text, files, hashes, and the subcommands.
 *
 * Of the C library they use only what is the same on every processor of Linux (statx and not stat, no O_DIRECTORY, no
 * O_NOFOLLOW), so that the command for one processor can be built with the headers of another.
 */
#ifndef COMMAND_H
#define COMMAND_H

#include <stdbool.h>
#include <stddef.h>
#include <stdint.h>
#include <stdio.h>

#include "boc.h"

/* How the command ends. */
enum status {
    FINE = 0,       /* all is as it should be */
    NOT_FINE = 1,   /* something was refused or is missing, not held, barred or different */
    WRONG_CALL = 2, /* it was not called as its help says */
    NO_FILE = 3     /* a file could not be read or written, or is no archive */
};

/* ---- calls.c: an archive in memory, and the calls of the library on it ------------------------------------------ */

/* An archive, with room for the one byte that makes a file too long for one. */
struct archive {
    size_t length;
    uint8_t bytes[BOC_ARCHIVE_BYTES + 1];
};

/* A PDU: its bits, and the bytes that came with them, which are as many as these need or it is refused. */
struct pdu {
    size_t bits, length;
    uint8_t bytes[512];
};

/* Under which user and part a PDU is held. */
struct key {
    uint32_t network, ssi, part;
};

/* What an archive says of an entry. */
struct entry {
    struct key key;
    size_t bits;
    uint32_t day;
};

/* The entry and the bit where a refused call stopped, or BOC_NOWHERE. */
struct spot {
    size_t entry, place;
};

/* A definition that puts a part back into a switch. */
struct definition {
    uint32_t type, delivery, acknowledgement;
};

/* The archive of a home network that holds nothing. */
void archive_empty(uint32_t home, struct archive *archive);

/* BOC_OK, or BOC_ARCHIVE and where. */
uint32_t archive_check(const struct archive *archive, struct spot *spot);

/* The home network of bytes that are an archive. */
uint32_t archive_home(const struct archive *archive);

/* The entry at an index, or none. */
bool archive_entry(const struct archive *archive, size_t index, struct entry *entry);

/* How many entries there are. */
size_t archive_count(const struct archive *archive);

/* What boc_capture answers; `next` is another archive than `archive`. */
uint32_t archive_capture(const struct archive *archive, const struct pdu *pdu, uint32_t day, struct archive *next,
                         struct spot *spot);

/* What boc_restore answers. */
uint32_t archive_restore(const struct archive *archive, const struct key *key, struct pdu *pdu, uint32_t *day);

/* An identity part as a DEFINE, a number part as a DEFINE EXTERNAL. */
uint32_t archive_reload(const struct archive *archive, const struct key *key, const struct definition *definition,
                        struct pdu *pdu);

/* What boc_decide answers. */
uint32_t archive_decide(const struct archive *archive, const uint32_t request[BOC_REQUEST_WORDS], uint32_t *decision);

/* What boc_read answers. */
uint32_t pdu_read(const struct pdu *pdu, uint32_t record[BOC_RECORD_WORDS], size_t *place);

/* The key under which an archive of a home network holds a PDU of this record, if it may hold it at all. */
bool record_key(const uint32_t record[BOC_RECORD_WORDS], uint32_t home, struct key *key);

/* Which of two keys is lower, by network, SSI and part: below 0 the first, above 0 the second. */
int key_order(const struct key *a, const struct key *b);

/* Whether two PDUs are the same bits. */
bool pdu_same(const struct pdu *a, const struct pdu *b);

/* ---- arguments.c: the words of the call -------------------------------------------------------------------------- */

enum option { HOME, DAY, EXPECT, JSON, ADD, REPLACE, REMOVE, DELIVER, ACKNOWLEDGE, HELP, OPTIONS };

/* The words that are no options, and for each option NULL, or its value, or "" if it takes none. */
struct arguments {
    size_t count;
    const char *words[9];
    const char *given[OPTIONS];
};

/* Takes apart the words after a command's name. Only options whose bit is set are taken; says what is wrong. */
bool arguments_from(const char *command, char *const words[], unsigned options, struct arguments *arguments);

/* NETWORK, SSI and PART, three words; says what is wrong. */
bool key_from(const char *const words[3], struct key *key);

/* ---- text.c: numbers, days, lines and words ---------------------------------------------------------------------- */

/* A line without its line feed: its length, and as many of its bytes as there is room for. */
struct line {
    size_t length;
    char text[1056];
};

/* Room for a date. */
enum { DATE = 16 };

/* The next line of a file, of which the last may lack its line feed; false at the end, or where reading failed. */
bool next_line(FILE *file, struct line *line);

/* The number of 1 to 8 decimal digits at the front of a text, if it is below a limit; moves behind it. */
bool take_number(const char **text, uint32_t limit, uint32_t *number);

/* A text that is such a number and nothing else. */
bool number_from(const char *text, uint32_t limit, uint32_t *number);

/* Moves behind a word at the front of a text, if it is there. */
bool take(const char **text, const char *word);

/* A day in decimal, or a date as YYYY-MM-DD, UTC. */
bool day_from(const char *text, uint32_t *day);

/* The date of a day that counts from 1970-01-01. */
const char *date_of(uint32_t day, char date[DATE]);

/* The PDU of a line `BITS HEX`; otherwise what is wrong with the line. */
const char *pdu_from(const struct line *line, struct pdu *pdu);

/* Prints a PDU as such a line. */
void print_pdu(const struct pdu *pdu);

/* The call at the front of a drill's line, up to its group; moves behind it. */
bool take_call(const char **text, uint32_t request[BOC_REQUEST_WORDS]);

const char *service_words(uint32_t service);
const char *result_words(uint32_t result);
const char *delivery_words(uint32_t status);

/* ---- messages.c: what is said on standard error ------------------------------------------------------------------ */

/* Says `boc: ` and a message, on a line. */
__attribute__((format(printf, 1, 2))) void complain(const char *format, ...);

/* Says of a file what could not be done, and by errno why. */
void complain_of(const char *file, const char *what);

/* Where standard error is a terminal, shows how far the work is, on a line that is written over. */
__attribute__((format(printf, 1, 2))) void progress(const char *format, ...);

/* Whether all that was printed on standard output went out; says so if not. */
bool printed(void);

/* ---- faults.c: what is wrong with an archive --------------------------------------------------------------------- */

/* Room for the words. */
enum { WORDS = 200 };

/* In words, what is wrong with bytes of which archive_check gave BOC_ARCHIVE and this spot. */
void fault_words(const struct archive *archive, const struct spot *spot, char words[WORDS]);

/* ---- files.c: files that are read, and the file that is replaced ------------------------------------------------- */

/* Where an archive stands: its folder, and the names there of it and of what stands beside it. */
struct site {
    const char *path; /* the archive, as the caller named it */
    int folder;       /* open, so that it can be flushed */
    int locked;       /* open while this process has the lock */
    char *name;       /* the archive */
    char *next;       /* what will be the archive: NAME.new */
    char *hash;       /* its hash: NAME.sha256 */
    char *next_hash;  /* what will be its hash: NAME.sha256.new */
    char *lock;       /* NAME.lock */
    bool there;       /* whether the archive is there; site_open finds its permissions, owner and group: */
    unsigned mode, owner, group;
};

/* Reads an open file that should be an archive, up to one byte more than one may have. */
bool read_bytes(int file, struct archive *archive);

/* Whether what was read from a file is an archive; says what is wrong. */
bool is_archive(const char *path, const struct archive *archive);

/* Reads an archive that a command names; says what is wrong. */
enum status load(const char *path, struct archive *archive);

/* Finds the folder and the names of an archive, through symbolic links; says what is wrong. To be left in any case. */
enum status site_find(const char *path, struct site *site);

/* Gives back what was found and taken, the lock too. */
void site_leave(struct site *site);

/* Takes the lock, which ends with the process at the latest; says what is wrong. */
bool site_lock(struct site *site);

/* Opens the archive, if it is there, which must be a file, and sees to whom it belongs; says what is wrong. */
bool site_open(struct site *site, int *file);

/* Whether the archive is another file than the one that was opened. */
bool site_replaced(const struct site *site, int file);

/* Writes a file beside the archive that belongs to whom that does, and flushes it; says what is wrong. */
bool site_write(const struct site *site, const char *name, const void *bytes, size_t length);

/* Opens a file beside the archive, as the disk has it; -1, and says what is wrong, if it cannot. */
int site_read(const struct site *site, const char *name);

/* Gives a file beside the archive another name; takes it away, if it is there; says what is wrong. */
bool site_rename(const struct site *site, const char *from, const char *to);
bool site_remove(const struct site *site, const char *name);

/* Has the disk keep the names that the folder has; says what is wrong. */
bool site_flush(const struct site *site);

/* ---- hash.c: the hash beside an archive -------------------------------------------------------------------------- */

/* A hash in hexadecimal digits, and the zero after them. */
enum { HASH = 65 };

/* What the hash beside an archive says of it. */
enum hash_state {
    HASH_NONE,    /* there is none */
    HASH_AGREES,  /* it is the archive's */
    HASH_WAITS,   /* NAME.sha256.new has it: a job was ended after it had replaced the archive and before the hash */
    HASH_DIFFERS, /* it is not the archive's, or no hash */
    HASH_UNKNOWN  /* there is one, and no sha256sum */
};

/* Has sha256sum tell the hash of an open file; says what is wrong. */
bool hash_of(int file, char hash[HASH]);

/* Writes NAME.sha256.new, flushes it, and reads it back; says what is wrong. */
bool hash_write(const struct site *site, const char hash[HASH]);

/* What the hash beside an open archive says of it. */
enum hash_state hash_state(const struct site *site, int file);

/* ---- expect.c: who must have an answer --------------------------------------------------------------------------- */

/* Keys, rising, each once. */
struct expected {
    size_t count, room;
    struct key *keys;
};

/* Reads a file of lines `NETWORK SSI PART`; says what is wrong. What it read is to be freed in any case. */
enum status expected_read(const char *name, struct expected *expected);

/* ---- The subcommands --------------------------------------------------------------------------------------------- */

enum status run_file(const struct arguments *arguments);
enum status run_list(const struct arguments *arguments);
enum status run_check(const struct arguments *arguments);
enum status run_show(const struct arguments *arguments);
enum status run_restore(const struct arguments *arguments);
enum status run_reload(const struct arguments *arguments);
enum status run_decide(const struct arguments *arguments);
enum status run_drill(const struct arguments *arguments);
enum status run_compare(const struct arguments *arguments);

#endif
