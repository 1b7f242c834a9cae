/* What `boc file` says of its work: a line for each PDU, one for each part that is missing, and the outcome. */
#ifndef REPORT_H
#define REPORT_H

#include "command.h"

struct report {
    bool json;
    bool begun;
    size_t lines; /* that were reported */
    unsigned long filed, unchanged, refused, missing;
};

void report_begin(struct report *report, uint32_t home, uint32_t day);

/* A PDU was taken: the contents of its part changed, or only its day. */
void report_taken(struct report *report, bool changed, const struct key *key);

/* A PDU was refused: the number, the words, and the bit or BOC_NOWHERE. */
void report_refused(struct report *report, uint32_t number, const char *words, size_t place);

/* A line is no PDU. */
void report_bad_line(struct report *report, const char *words);

/* Nothing of this day is held for a part that was expected. */
void report_missing(struct report *report, const struct key *key);

/* Nothing was refused, nobody is missing, and something came in. */
bool report_is_complete(const struct report *report);

/* The last line of a run that replaced the archive. */
void report_end(const struct report *report);

/* The last line of a run that failed. */
void report_failure(const struct report *report, bool replaced);

#endif
