/* What `boc file` says of its work, in lines or as one JSON text. */
#include "report.h"

void report_begin(struct report *report, uint32_t home, uint32_t day)
{
    report->begun = true;
    if (report->json)
        printf("{\"home\": %u, \"day\": %u, \"report\": [", (unsigned)home, (unsigned)day);
}

/* Begins an item of the JSON text. */
static void item(const struct report *report, const char *what)
{
    printf("%s\n{\"%s\": ", report->lines + report->missing == 1 ? "" : ",", what);
}

void report_taken(struct report *report, bool changed, const struct key *key)
{
    const char *what = changed ? "filed" : "unchanged";

    report->lines++;
    report->filed += changed;
    report->unchanged += !changed;
    if (report->json) {
        item(report, "line");
        printf("%zu, \"result\": \"%s\", \"network\": %u, \"ssi\": %u, \"part\": %u}", report->lines, what,
               (unsigned)key->network, (unsigned)key->ssi, (unsigned)key->part);
    } else {
        printf("%s %u/%u part %u\n", what, (unsigned)key->network, (unsigned)key->ssi, (unsigned)key->part);
    }
}

void report_refused(struct report *report, uint32_t number, const char *words, size_t place)
{
    report->lines++;
    report->refused++;
    if (report->json) {
        item(report, "line");
        printf("%zu, \"result\": \"refused\", \"number\": %u, \"words\": \"%s\"", report->lines, (unsigned)number,
               words);
        if (place != BOC_NOWHERE)
            printf(", \"bit\": %zu", place);
        printf("}");
    } else {
        printf("refused %u: %s", (unsigned)number, words);
        if (place != BOC_NOWHERE)
            printf(", at bit %zu", place);
        printf("\n");
    }
}

void report_bad_line(struct report *report, const char *words)
{
    report->lines++;
    report->refused++;
    if (report->json) {
        item(report, "line");
        printf("%zu, \"result\": \"bad line\", \"words\": \"%s\"}", report->lines, words);
    } else {
        printf("bad line: %s\n", words);
    }
}

void report_missing(struct report *report, const struct key *key)
{
    report->missing++;
    if (report->json) {
        item(report, "result");
        printf("\"missing\", \"network\": %u, \"ssi\": %u, \"part\": %u}", (unsigned)key->network, (unsigned)key->ssi,
               (unsigned)key->part);
    } else {
        printf("missing %u/%u part %u\n", (unsigned)key->network, (unsigned)key->ssi, (unsigned)key->part);
    }
}

bool report_is_complete(const struct report *report)
{
    return report->lines > 0 && report->refused == 0 && report->missing == 0;
}

void report_end(const struct report *report)
{
    const char *outcome = report_is_complete(report) ? "complete" : "partial";

    if (report->json)
        printf("],\n\"outcome\": \"%s\", \"filed\": %lu, \"unchanged\": %lu, \"refused\": %lu, \"missing\": %lu}\n",
               outcome, report->filed, report->unchanged, report->refused, report->missing);
    else
        printf("%s: %lu filed, %lu unchanged, %lu refused, %lu missing\n", outcome, report->filed, report->unchanged,
               report->refused, report->missing);
}

void report_failure(const struct report *report, bool replaced)
{
    if (report->json)
        printf("%s\"outcome\": \"failed\", \"replaced\": %s}\n", report->begun ? "],\n" : "{",
               replaced ? "true" : "false");
    else
        printf("failed: the archive %s\n", replaced ? "was replaced" : "is as it was");
}
