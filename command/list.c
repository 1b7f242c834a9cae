/* `boc list` and `boc check`: what an archive holds, and whether it is one. */
#include <unistd.h>

#include "command.h"

static struct archive archive;

static void list_text(void)
{
    struct entry entry;
    char date[DATE];

    printf("home %u entries %zu\n", (unsigned)archive_home(&archive), archive_count(&archive));
    for (size_t i = 0; archive_entry(&archive, i, &entry); i++)
        printf("%u %u part %u bits %zu day %u date %s\n", (unsigned)entry.key.network, (unsigned)entry.key.ssi,
               (unsigned)entry.key.part, entry.bits, (unsigned)entry.day, date_of(entry.day, date));
}

static void list_json(void)
{
    struct entry entry;
    char date[DATE];

    printf("{\"home\": %u, \"entries\": [", (unsigned)archive_home(&archive));
    for (size_t i = 0; archive_entry(&archive, i, &entry); i++)
        printf("%s\n{\"network\": %u, \"ssi\": %u, \"part\": %u, \"bits\": %zu, \"day\": %u, \"date\": \"%s\"}",
               i == 0 ? "" : ",", (unsigned)entry.key.network, (unsigned)entry.key.ssi, (unsigned)entry.key.part,
               entry.bits, (unsigned)entry.day, date_of(entry.day, date));
    printf("]}\n");
}

enum status run_list(const struct arguments *arguments)
{
    enum status status = load(arguments->words[0], &archive);

    if (status != FINE)
        return status;
    if (arguments->given[JSON])
        list_json();
    else
        list_text();
    return FINE;
}

/* What was found of an archive. */
struct finding {
    uint32_t number;
    struct spot spot;
    enum hash_state hash;
};

/* Looks at an archive and at the hash beside it. A job may replace both meanwhile: then it looks again. */
static enum status look(struct site *site, struct finding *finding)
{
    bool again;
    int file;

    do {
        if (!site_open(site, &file))
            return NO_FILE;
        if (!site->there) {
            complain_of(site->path, "cannot be opened");
            return NO_FILE;
        }
        if (!read_bytes(file, &archive)) {
            complain_of(site->path, "cannot be read");
            close(file);
            return NO_FILE;
        }
        finding->number = archive_check(&archive, &finding->spot);
        finding->hash = hash_state(site, file);
        again = finding->hash == HASH_DIFFERS && site_replaced(site, file);
        close(file);
    } while (again);
    return FINE;
}

static const char *const hash_words[] = {
    [HASH_NONE] = "none",   [HASH_AGREES] = "agrees",           [HASH_WAITS] = "agrees, not yet in place",
    [HASH_DIFFERS] = "differs", [HASH_UNKNOWN] = "not looked at",
};

static void check_text(const struct finding *finding, const char *words)
{
    if (finding->number == BOC_OK)
        printf("archive: good, home network %u, %zu entries, %zu bytes\n", (unsigned)archive_home(&archive),
               archive_count(&archive), archive.length);
    else
        printf("archive: refused %u: %s\n", (unsigned)finding->number, words);
    printf("hash: %s\n", hash_words[finding->hash]);
}

static void check_json(const struct finding *finding, const char *words)
{
    if (finding->number == BOC_OK) {
        printf("{\"archive\": \"good\", \"home\": %u, \"entries\": %zu, \"bytes\": %zu",
               (unsigned)archive_home(&archive), archive_count(&archive), archive.length);
    } else {
        printf("{\"archive\": \"refused\", \"number\": %u, \"words\": \"%s\"", (unsigned)finding->number, words);
        if (finding->spot.entry != BOC_NOWHERE)
            printf(", \"entry\": %zu", finding->spot.entry);
        if (finding->spot.place != BOC_NOWHERE)
            printf(", \"bit\": %zu", finding->spot.place);
    }
    printf(", \"hash\": \"%s\"}\n", hash_words[finding->hash]);
}

enum status run_check(const struct arguments *arguments)
{
    struct finding finding;
    char words[WORDS] = "";
    struct site site;
    enum status status = site_find(arguments->words[0], &site);

    if (status == FINE)
        status = look(&site, &finding);
    site_leave(&site);
    if (status != FINE)
        return status;
    if (finding.number != BOC_OK)
        fault_words(&archive, &finding.spot, words);
    if (arguments->given[JSON])
        check_json(&finding, words);
    else
        check_text(&finding, words);
    if (finding.number != BOC_OK || finding.hash == HASH_DIFFERS)
        return NOT_FINE;
    return finding.hash == HASH_UNKNOWN ? NO_FILE : FINE;
}
