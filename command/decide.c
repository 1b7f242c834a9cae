/* `boc decide` and `boc drill`: calls decided from an archive. */
#include <errno.h>
#include <string.h>

#include "command.h"

/* A line of a drill may have as many bytes. */
enum { DRILL_LINE = 200 };

static struct archive archive;

/* The words of a call, as one text. */
static bool call_text(const struct arguments *arguments, char *text, size_t room)
{
    size_t length = 0;

    for (size_t i = 1; i < arguments->count; i++) {
        size_t more = strlen(arguments->words[i]);

        if (length + more + 2 > room)
            return false;
        if (i > 1)
            text[length++] = ' ';
        memcpy(text + length, arguments->words[i], more);
        length += more;
    }
    text[length] = '\0';
    return true;
}

enum status run_decide(const struct arguments *arguments)
{
    uint32_t request[BOC_REQUEST_WORDS], decision, number;
    char text[DRILL_LINE];
    const char *rest = text;
    enum status status;

    if (!call_text(arguments, text, sizeof text) || !take_call(&rest, request) || *rest != '\0') {
        complain("decide: a call is NETWORK SSI SERVICE, then t NETWORK SSI or n DIGITS, then a group's NETWORK SSI "
                 "or -");
        return WRONG_CALL;
    }
    status = load(arguments->words[0], &archive);
    if (status != FINE)
        return status;
    number = archive_decide(&archive, request, &decision);
    if (number != BOC_OK) {
        complain("decide: refused %u: %s", (unsigned)number, boc_refusal_text(number));
        return WRONG_CALL;
    }
    printf("%s\n", boc_decision_text(decision));
    return decision == BOC_ALLOWED ? FINE : NOT_FINE;
}

/* A decision as a drill's line has it. */
static const char *answer_words(uint32_t decision)
{
    static const char *const words[] = {
        [BOC_BARRED_GROUP] = "barred 0", [BOC_BARRED_SERVICE] = "barred 1", [BOC_BARRED_DESTINATION] = "barred 2",
        [BOC_ALLOWED] = "allowed",       [BOC_PART_NOT_HELD] = "missing",
    };

    return words[decision];
}

/* The expectation that a text is, as a decision. */
static bool expected_from(const char *text, uint32_t *expected)
{
    for (*expected = BOC_BARRED_GROUP; *expected <= BOC_PART_NOT_HELD; ++*expected)
        if (strcmp(text, answer_words(*expected)) == 0)
            return true;
    return false;
}

/* The lines of each kind. */
struct totals {
    unsigned long ok, got, bad;
};

static void drill_line(const struct line *line, struct totals *totals)
{
    uint32_t request[BOC_REQUEST_WORDS], expected, decision;
    const char *rest = line->text;

    if (line->length > DRILL_LINE || strlen(line->text) != line->length || !take_call(&rest, request) ||
        !take(&rest, " ") || !expected_from(rest, &expected) ||
        archive_decide(&archive, request, &decision) != BOC_OK) {
        printf("bad line\n");
        totals->bad++;
    } else if (decision == expected) {
        printf("ok\n");
        totals->ok++;
    } else {
        printf("got %s\n", answer_words(decision));
        totals->got++;
    }
}

enum status run_drill(const struct arguments *arguments)
{
    struct totals totals = {0, 0, 0};
    const char *name = arguments->words[1];
    struct line line;
    bool was_read;
    FILE *calls;

    if (load(arguments->words[0], &archive) != FINE) {
        printf("refused 7\n");
        return NO_FILE;
    }
    calls = fopen(name, "re");
    was_read = calls != NULL;
    if (calls == NULL)
        complain_of(name, "cannot be opened");
    while (calls != NULL && next_line(calls, &line))
        drill_line(&line, &totals);
    if (calls != NULL && ferror(calls)) {
        complain_of(name, "cannot be read");
        was_read = false;
    }
    if (calls != NULL)
        fclose(calls);
    printf("total ok %lu got %lu bad %lu\n", totals.ok, totals.got, totals.bad);
    if (!was_read)
        return NO_FILE;
    return totals.got + totals.bad == 0 ? FINE : NOT_FINE;
}
