/*
 * A terminal's table of service profiles: set by +CTSP lines, read back as text, and put back after a restart by a set
 * line for each line of the text. Build: cc terminals.c -lboc
 */
#include <stdio.h>
#include <string.h>

#include "boc.h"

/* Takes a line, to which the CR is added, and prints what is answered. */
static uint32_t take(const char *text, uint8_t *table, uint8_t *out, size_t out_len, size_t *length)
{
    char line[64];
    int size = snprintf(line, sizeof line, "%s\r", text);
    uint32_t answer = boc_terminal_line((const uint8_t *)line, (size_t)size, table, BOC_TABLE_BYTES, out, out_len,
                                        length);

    printf("%s: %s\n", text, boc_refusal_text(answer));
    return answer;
}

/* A set line for each line of a text that the read form gave. */
static int put_back(const uint8_t *text, size_t length, uint8_t *table)
{
    size_t at = sizeof "+CTSP: " - 1, end, none;
    char line[32];

    for (; at < length; at = end + 2) {
        for (end = at; text[end] != '\r'; end++)
            ;
        snprintf(line, sizeof line, "AT+CTSP=%.*s", (int)(end - at), (const char *)text + at);
        if (take(line, table, NULL, 0, &none) != BOC_OK)
            return 0;
    }
    return 1;
}

int main(void)
{
    static const char *const lines[] = {
        "AT+CTSP=1,0",      /* calls, voice and data, to the TE only */
        "AT+CTSP=0,1,12",   /* security to the MT only */
        "AT+CTSP=3,3,255",  /* PID 255 to neither */
        "AT+CTSP=1,4",      /* Packet Data */
        "AT+CTSP=1,4,30",   /* which takes no third field */
        "AT+CTSP=4,0",      /* no profile */
        "AT+CTSP=1, 0",     /* no line: a space */
    };
    uint8_t table[BOC_TABLE_BYTES], again[BOC_TABLE_BYTES], text[BOC_TABLE_TEXT_BYTES];
    size_t length, i;

    if (boc_terminal_reset(table, sizeof table) != BOC_OK)
        return 1;
    for (i = 0; i < sizeof lines / sizeof lines[0]; i++)
        take(lines[i], table, NULL, 0, &length);
    if (take("AT+CTSP?", table, text, sizeof text, &length) != BOC_OK)
        return 1;
    fwrite(text, 1, length, stdout);

    if (boc_terminal_reset(again, sizeof again) != BOC_OK || !put_back(text, length, again))
        return 1;
    printf("put back: %s\n", memcmp(table, again, sizeof table) == 0 ? "the same table" : "another table");
    return memcmp(table, again, sizeof table) != 0;
}
