/*
 * `boc file`: files PDUs, and says that it is complete only after the archive on the disk has given back every one of
 * them, and everything that was held before, bit for bit.
 */
#include <stdlib.h>
#include <string.h>
#include <time.h>
#include <unistd.h>

#include "report.h"

/* A PDU that was taken, as it came in. */
struct taken {
    struct key key;
    struct pdu pdu;
};

static struct {
    struct site site;
    struct report report;
    uint32_t home, day;
    struct archive old;       /* as the file had it */
    struct archive turns[2];  /* a capture reads one and writes the other */
    unsigned turn;            /* which of them has all that was taken */
    struct archive read_back; /* as the disk has it */
    struct expected expected;
    size_t taken_count;
    struct taken taken[BOC_ARCHIVE_ENTRIES]; /* the last for each key */
} run;

/* ---- What the call says ------------------------------------------------------------------------------------------ */

static bool day_of_clock(uint32_t *day)
{
    time_t days = time(NULL) / 86400;

    if (days < 0 || days >= BOC_DAY_LIMIT) {
        complain("the clock has no day from 0 to %d: give one by --day", BOC_DAY_LIMIT - 1);
        return false;
    }
    *day = (uint32_t)days;
    return true;
}

static bool take_arguments(const struct arguments *arguments)
{
    const char *home = arguments->given[HOME], *day = arguments->given[DAY];

    run.report.json = arguments->given[JSON] != NULL;
    if (home != NULL && !number_from(home, BOC_NETWORK_LIMIT, &run.home)) {
        complain("file: --home %s: a network is a number from 0 to %d", home, BOC_NETWORK_LIMIT - 1);
        return false;
    }
    if (day != NULL && !day_from(day, &run.day)) {
        complain("file: --day %s: a day is a number from 0 to %d, or a date YYYY-MM-DD from 1970-01-01 to 2149-06-06",
                 day, BOC_DAY_LIMIT - 1);
        return false;
    }
    return day != NULL || day_of_clock(&run.day);
}

/* ---- The old archive --------------------------------------------------------------------------------------------- */

/* Sees that the hash beside the archive is not another one's, and puts it in place if an ended job has not. */
static enum status see_hash(enum hash_state hash)
{
    const struct site *site = &run.site;

    if (hash == HASH_DIFFERS) {
        complain("%s: its hash is not the one in %s: it is not as it was written", site->path, site->hash);
        return NO_FILE;
    }
    if (hash == HASH_WAITS && (!site_rename(site, site->next_hash, site->hash) || !site_flush(site)))
        return NO_FILE;
    return FINE;
}

/* Reads the archive that is there. */
static enum status read_old(int file, const char *home, enum hash_state *hash)
{
    if (!read_bytes(file, &run.old)) {
        complain_of(run.site.path, "cannot be read");
        return NO_FILE;
    }
    if (!is_archive(run.site.path, &run.old))
        return NO_FILE;
    if (home != NULL && run.home != archive_home(&run.old)) {
        complain("%s: its home network is %u, not %u", run.site.path, (unsigned)archive_home(&run.old),
                 (unsigned)run.home);
        return WRONG_CALL;
    }
    *hash = hash_state(&run.site, file);
    return see_hash(*hash);
}

/* Takes the lock and reads the old archive; if there is none, it is the empty one of the home network. */
static enum status begin(const char *home, enum hash_state *hash)
{
    enum status status = FINE;
    int file;

    if (!run.site.there && home == NULL) {
        complain("%s: there is no such archive: --home N makes one", run.site.path);
        return NO_FILE;
    }
    if (!site_lock(&run.site) || !site_open(&run.site, &file))
        return NO_FILE;
    *hash = HASH_NONE;
    if (run.site.there) {
        status = read_old(file, home, hash);
        close(file);
    } else if (home == NULL) {
        complain("%s: is gone", run.site.path);
        status = NO_FILE;
    } else {
        archive_empty(run.home, &run.old);
    }
    run.home = archive_home(&run.old);
    run.turns[0] = run.old;
    return status;
}

/* ---- The PDUs ---------------------------------------------------------------------------------------------------- */

/* Keeps a PDU to compare it with what the disk gives back. */
static void keep(const struct key *key, const struct pdu *pdu)
{
    size_t i = 0;

    while (i < run.taken_count && key_order(&run.taken[i].key, key) != 0)
        i++;
    run.taken[i] = (struct taken){*key, *pdu};
    run.taken_count += i == run.taken_count;
}

/* Why no archive may hold a PDU. */
static void unfit_words(const uint32_t record[BOC_RECORD_WORDS], const struct key *key, char words[WORDS])
{
    if (record[BOC_PDU_TYPE] != BOC_INTERROGATE_ACK)
        snprintf(words, WORDS, "it is no answer to an interrogation");
    else if (record[BOC_AFFECTED] != 1)
        snprintf(words, WORDS, "it is an answer about several users");
    else
        snprintf(words, WORDS, "it is an answer without a part for %u/%u: %s (result %u)", (unsigned)key->network,
                 (unsigned)key->ssi, result_words(record[BOC_RESULT]), (unsigned)record[BOC_RESULT]);
}

/* Why an archive that is full cannot take a PDU. */
static void full_words(const struct key *key, char words[WORDS])
{
    const struct archive *archive = &run.turns[run.turn];
    struct pdu pdu;
    uint32_t day;
    bool entries = archive_count(archive) == BOC_ARCHIVE_ENTRIES &&
                   archive_restore(archive, key, &pdu, &day) == BOC_NOT_HELD;

    snprintf(words, WORDS, "the archive is full: with %u/%u part %u it would have more than %s; file it in another one",
             (unsigned)key->network, (unsigned)key->ssi, (unsigned)key->part, entries ? "512 entries" : "65,536 bytes");
}

/* Captures the PDU of a line, and says what became of it. */
static void offer(const struct line *line)
{
    const struct archive *archive = &run.turns[run.turn];
    uint32_t record[BOC_RECORD_WORDS], day, number;
    struct key key = {0, 0, 0};
    struct pdu pdu, held;
    struct spot spot;
    char words[WORDS];
    const char *wrong = pdu_from(line, &pdu);
    bool changed;

    if (wrong != NULL) {
        report_bad_line(&run.report, wrong);
        return;
    }
    changed = pdu_read(&pdu, record, &spot.place) != BOC_OK || !record_key(record, run.home, &key) ||
              archive_restore(archive, &key, &held, &day) != BOC_OK || !pdu_same(&held, &pdu);
    number = archive_capture(archive, &pdu, run.day, &run.turns[1 - run.turn], &spot);
    if (number == BOC_OK) {
        run.turn = 1 - run.turn;
        keep(&key, &pdu);
        report_taken(&run.report, changed, &key);
        return;
    }
    if (number == BOC_UNFIT)
        unfit_words(record, &key, words);
    else if (number == BOC_ROOM)
        full_words(&key, words);
    else
        snprintf(words, WORDS, "%s", boc_refusal_text(number));
    report_refused(&run.report, number, words, spot.place);
}

/* Says which of the parts that must have an answer of this day have none. */
static void find_missing(void)
{
    struct pdu pdu;
    uint32_t day;

    for (size_t i = 0; i < run.expected.count; i++) {
        const struct key *key = &run.expected.keys[i];

        if (archive_restore(&run.turns[run.turn], key, &pdu, &day) != BOC_OK || day != run.day)
            report_missing(&run.report, key);
    }
}

/* Takes every line of standard input. */
static enum status offer_all(void)
{
    struct line line;

    report_begin(&run.report, run.home, run.day);
    while (next_line(stdin, &line)) {
        offer(&line);
        progress("%zu PDUs", run.report.lines);
    }
    if (ferror(stdin)) {
        complain_of("standard input", "cannot be read");
        return NO_FILE;
    }
    if (run.report.lines == 0)
        complain("standard input: no PDU came in");
    find_missing();
    return printed() ? FINE : NO_FILE;
}

/* ---- The new archive --------------------------------------------------------------------------------------------- */

/* Whether an archive gives back a PDU under a key and a day. */
static bool gives(const struct archive *archive, const struct key *key, const struct pdu *pdu, uint32_t day)
{
    struct pdu back;
    uint32_t back_day;

    return archive_restore(archive, key, &back, &back_day) == BOC_OK && pdu_same(&back, pdu) && back_day == day;
}

/* Whether a PDU was taken for a key. */
static bool was_taken(const struct key *key)
{
    for (size_t i = 0; i < run.taken_count; i++)
        if (key_order(&run.taken[i].key, key) == 0)
            return true;
    return false;
}

/* Whether what was read back is what was written, byte for byte. */
static bool is_written(void)
{
    const struct archive *archive = &run.turns[run.turn];

    return run.read_back.length == archive->length &&
           memcmp(run.read_back.bytes, archive->bytes, archive->length) == 0;
}

/* Whether what was read back gives each PDU that was taken, all else as the old archive has it, and nothing more. */
static bool gives_all(void)
{
    size_t count = run.taken_count;
    struct entry entry;
    struct pdu pdu;
    uint32_t day;

    for (size_t i = 0; i < run.taken_count; i++)
        if (!gives(&run.read_back, &run.taken[i].key, &run.taken[i].pdu, run.day))
            return false;
    for (size_t i = 0; archive_entry(&run.old, i, &entry); i++) {
        if (was_taken(&entry.key))
            continue;
        count++;
        if (archive_restore(&run.old, &entry.key, &pdu, &day) != BOC_OK ||
            !gives(&run.read_back, &entry.key, &pdu, day))
            return false;
    }
    return archive_count(&run.read_back) == count;
}

/* Reads what was written beside the archive, restores all and compares; then has it hashed, if anything can do so. */
static bool read_again(bool *hashed, char hash[HASH])
{
    int file = site_read(&run.site, run.site.next);
    bool same;

    if (file < 0)
        return false;
    same = read_bytes(file, &run.read_back);
    if (!same)
        complain_of(run.site.next, "cannot be read");
    else if (!is_written() || !gives_all()) {
        complain("%s: does not give back what was written", run.site.next);
        same = false;
    }
    *hashed = same && *hashed && hash_of(file, hash);
    close(file);
    return same;
}

/* Writes the hash that will be the archive's beside it; without one, takes the old one away. */
static bool prepare_hash(bool hashed, const char hash[HASH])
{
    const struct site *site = &run.site;

    if (hashed)
        return hash_write(site, hash) && site_flush(site);
    complain("%s: no hash is kept beside it", site->path);
    return site_remove(site, site->hash) && site_remove(site, site->next_hash) && site_flush(site);
}

/* All that comes before the archive is replaced. */
static bool prepare(bool *hashed)
{
    const struct archive *archive = &run.turns[run.turn];
    char hash[HASH];

    progress("writing and reading back");
    return site_write(&run.site, run.site.next, archive->bytes, archive->length) && read_again(hashed, hash) &&
           prepare_hash(*hashed, hash);
}

/* Replaces the archive, then its hash; each is on the disk before the next step. */
static bool replace(bool hashed, bool *replaced)
{
    const struct site *site = &run.site;

    *replaced = prepare(&hashed) && site_rename(site, site->next, site->name);
    if (!*replaced) {
        (void)site_remove(site, site->next);
        if (hashed)
            (void)site_remove(site, site->next_hash);
        return false;
    }
    return site_flush(site) && (!hashed || (site_rename(site, site->next_hash, site->hash) && site_flush(site)));
}

static enum status file_all(const char *home, bool *replaced)
{
    enum hash_state hash;
    enum status status = begin(home, &hash);

    if (status == FINE)
        status = offer_all();
    if (status == FINE && !replace(hash != HASH_UNKNOWN, replaced))
        status = NO_FILE;
    return status;
}

enum status run_file(const struct arguments *arguments)
{
    bool replaced = false;
    enum status status;

    if (!take_arguments(arguments))
        return WRONG_CALL;
    status = site_find(arguments->words[0], &run.site);
    if (status == FINE && arguments->given[EXPECT])
        status = expected_read(arguments->given[EXPECT], &run.expected);
    if (status == FINE)
        status = file_all(arguments->given[HOME], &replaced);
    free(run.expected.keys);
    site_leave(&run.site);
    if (status == NO_FILE)
        report_failure(&run.report, replaced);
    if (status != FINE)
        return status;
    report_end(&run.report);
    return report_is_complete(&run.report) ? FINE : NOT_FINE;
}
