/* Who must have an answer: a file of users and parts. */
#include <stdlib.h>
#include <string.h>

#include "command.h"

static void add(struct expected *expected, const struct key *key)
{
    if (expected->count == expected->room) {
        expected->room = 2 * expected->room + 64;
        expected->keys = realloc(expected->keys, expected->room * sizeof *expected->keys);
        if (expected->keys == NULL) {
            complain("there is no memory");
            exit(NO_FILE);
        }
    }
    expected->keys[expected->count++] = *key;
}

/* A line `NETWORK SSI PART`. */
static bool key_of(const struct line *line, struct key *key)
{
    const char *text = line->text;

    return strlen(line->text) == line->length && take_number(&text, BOC_NETWORK_LIMIT, &key->network) &&
           take(&text, " ") && take_number(&text, BOC_NETWORK_LIMIT, &key->ssi) && take(&text, " ") &&
           take_number(&text, BOC_NUMBER_PART + 1, &key->part) && key->part != 0 && *text == '\0';
}

/* Takes every line; empty ones, and those that begin with #, say nothing. */
static enum status take_lines(FILE *users, const char *name, struct expected *expected)
{
    struct line line;
    struct key key;

    for (size_t number = 1; next_line(users, &line); number++) {
        if (line.length == 0 || line.text[0] == '#')
            continue;
        if (!key_of(&line, &key)) {
            complain("%s, line %zu: is not NETWORK SSI PART", name, number);
            return WRONG_CALL;
        }
        add(expected, &key);
    }
    if (!ferror(users))
        return FINE;
    complain_of(name, "cannot be read");
    return NO_FILE;
}

static int order(const void *a, const void *b)
{
    return key_order(a, b);
}

/* Sorts the keys, and keeps each once. */
static void sort(struct expected *expected)
{
    size_t kept = 0;

    if (expected->count == 0)
        return;
    qsort(expected->keys, expected->count, sizeof *expected->keys, order);
    for (size_t i = 1; i < expected->count; i++)
        if (key_order(&expected->keys[i], &expected->keys[kept]) != 0)
            expected->keys[++kept] = expected->keys[i];
    expected->count = kept + 1;
}

enum status expected_read(const char *name, struct expected *expected)
{
    FILE *users = fopen(name, "re");
    enum status status;

    if (users == NULL) {
        complain_of(name, "cannot be opened");
        return NO_FILE;
    }
    status = take_lines(users, name, expected);
    fclose(users);
    sort(expected);
    return status;
}
