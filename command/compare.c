/* `boc compare`: what is in one archive and not, or not so, in another. */
#include "command.h"

static struct archive old, new;

/* The entries of each kind. */
struct totals {
    unsigned long added, contents, days, gone, same;
};

static void say(const char *what, const struct entry *entry)
{
    printf("%s %u/%u part %u day %u", what, (unsigned)entry->key.network, (unsigned)entry->key.ssi,
           (unsigned)entry->key.part, (unsigned)entry->day);
}

/* Compares what both hold under one key. */
static void compare_entries(const struct entry *before, const struct entry *after, struct totals *totals)
{
    struct pdu old_pdu, new_pdu;
    uint32_t day;
    bool same = archive_restore(&old, &before->key, &old_pdu, &day) == BOC_OK &&
                archive_restore(&new, &after->key, &new_pdu, &day) == BOC_OK && pdu_same(&old_pdu, &new_pdu);

    if (same && before->day == after->day) {
        totals->same++;
        return;
    }
    say("changed", before);
    printf(" to %u: %s\n", (unsigned)after->day, same ? "day alone" : "contents");
    totals->contents += !same;
    totals->days += same;
}

/* Both rise by network, SSI and part, so that one walk over both finds all. */
static void compare_all(struct totals *totals)
{
    struct entry before, after;
    size_t i = 0, j = 0;

    for (;;) {
        bool in_old = archive_entry(&old, i, &before), in_new = archive_entry(&new, j, &after);
        int lower;

        if (!in_old && !in_new)
            return;
        lower = !in_new ? -1 : !in_old ? 1 : key_order(&before.key, &after.key);
        if (lower < 0) {
            say("gone", &before);
            totals->gone++;
        } else if (lower > 0) {
            say("added", &after);
            totals->added++;
        } else {
            compare_entries(&before, &after, totals);
        }
        if (lower != 0)
            printf("\n");
        i += lower <= 0;
        j += lower >= 0;
    }
}

enum status run_compare(const struct arguments *arguments)
{
    struct totals totals = {0, 0, 0, 0, 0};
    bool same_home;

    if (load(arguments->words[0], &old) != FINE || load(arguments->words[1], &new) != FINE)
        return NO_FILE;
    same_home = archive_home(&old) == archive_home(&new);
    if (!same_home)
        printf("home %u to %u\n", (unsigned)archive_home(&old), (unsigned)archive_home(&new));
    compare_all(&totals);
    printf("total: %lu added, %lu changed in contents, %lu changed in day alone, %lu gone, %lu the same\n",
           totals.added, totals.contents, totals.days, totals.gone, totals.same);
    return same_home && totals.added + totals.contents + totals.days + totals.gone == 0 ? FINE : NOT_FINE;
}
