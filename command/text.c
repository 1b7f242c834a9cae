/* Numbers, days, lines and words. */
#define _GNU_SOURCE
#include <string.h>
#include <time.h>

#include "command.h"

enum { DAY_SECONDS = 86400, MOST_DIGITS = 8 };

bool next_line(FILE *file, struct line *line)
{
    int byte = getc(file);

    if (byte == EOF)
        return false;
    for (line->length = 0; byte != EOF && byte != '\n'; byte = getc(file)) {
        if (line->length < sizeof line->text - 1)
            line->text[line->length] = (char)byte;
        line->length++;
    }
    line->text[line->length < sizeof line->text - 1 ? line->length : sizeof line->text - 1] = '\0';
    return !ferror(file);
}

bool take_number(const char **text, uint32_t limit, uint32_t *number)
{
    const char *digit = *text;
    uint32_t value = 0;

    for (; *digit >= '0' && *digit <= '9' && digit - *text < MOST_DIGITS; digit++)
        value = 10 * value + (uint32_t)(*digit - '0');
    if (digit == *text || (*digit >= '0' && *digit <= '9') || value >= limit)
        return false;
    *text = digit;
    *number = value;
    return true;
}

bool number_from(const char *text, uint32_t limit, uint32_t *number)
{
    return take_number(&text, limit, number) && *text == '\0';
}

bool take(const char **text, const char *word)
{
    size_t length = strlen(word);

    if (strncmp(*text, word, length) != 0)
        return false;
    *text += length;
    return true;
}

const char *date_of(uint32_t day, char date[DATE])
{
    time_t seconds = (time_t)day * DAY_SECONDS;
    struct tm parts;

    if (gmtime_r(&seconds, &parts) == NULL || strftime(date, DATE, "%Y-%m-%d", &parts) == 0)
        date[0] = '\0';
    return date;
}

/* A date is taken if its day has it as its date: of February 30 none does. */
static bool day_of(const char *date, uint32_t *day)
{
    uint32_t year, month, of_month;
    const char *text = date;
    struct tm parts = {0};
    char again[DATE];
    time_t seconds;

    if (!take_number(&text, 10000, &year) || !take(&text, "-") || !take_number(&text, 13, &month) ||
        !take(&text, "-") || !take_number(&text, 32, &of_month))
        return false;
    parts.tm_year = (int)year - 1900;
    parts.tm_mon = (int)month - 1;
    parts.tm_mday = (int)of_month;
    seconds = timegm(&parts);
    if (seconds < 0 || seconds / DAY_SECONDS >= BOC_DAY_LIMIT)
        return false;
    *day = (uint32_t)(seconds / DAY_SECONDS);
    return strcmp(date_of(*day, again), date) == 0;
}

bool day_from(const char *text, uint32_t *day)
{
    return number_from(text, BOC_DAY_LIMIT, day) || day_of(text, day);
}

static int hex_value(char digit)
{
    static const char digits[] = "0123456789abcdef0123456789ABCDEF";
    const char *at = digit == '\0' ? NULL : strchr(digits, digit);

    return at == NULL ? -1 : (int)((at - digits) % 16);
}

const char *pdu_from(const struct line *line, struct pdu *pdu)
{
    const char *text = line->text, *end = line->text + line->length;
    uint32_t bits;

    if (line->length >= sizeof line->text)
        return "longer than a PDU may be";
    if (!take_number(&text, UINT32_MAX, &bits) || !take(&text, " "))
        return "it does not begin with a bit length and a space";
    if ((size_t)(end - text) > 2 * sizeof pdu->bytes)
        return "longer than a PDU may be";
    pdu->bits = bits;
    for (pdu->length = 0; text < end; text += 2) {
        int high = hex_value(text[0]), low = hex_value(text[1]);

        if (high < 0 || (low < 0 && text + 1 < end))
            return "after the bit length stands what is no hexadecimal digit";
        if (low < 0)
            return "an odd number of hexadecimal digits";
        pdu->bytes[pdu->length++] = (uint8_t)(16 * high + low);
    }
    return NULL;
}

void print_pdu(const struct pdu *pdu)
{
    size_t i;

    printf("%zu ", pdu->bits);
    for (i = 0; i < pdu->length; i++)
        printf("%02x", pdu->bytes[i]);
    printf("\n");
}

/* NETWORK SSI */
static bool take_identity(const char **text, uint32_t identity[2])
{
    return take_number(text, BOC_NETWORK_LIMIT, &identity[0]) && take(text, " ") &&
           take_number(text, BOC_NETWORK_LIMIT, &identity[1]);
}

/* 1 to 24 digits */
static bool take_digits(const char **text, uint32_t *length, uint32_t digits[BOC_DIGIT_PLACES])
{
    static const char marks[] = "0123456789*#+";

    for (*length = 0; **text != '\0' && strchr(marks, **text) != NULL; ++*text, ++*length) {
        if (*length == BOC_DIGIT_PLACES)
            return false;
        digits[*length] = (uint32_t)(strchr(marks, **text) - marks);
    }
    return *length > 0;
}

bool take_call(const char **text, uint32_t request[BOC_REQUEST_WORDS])
{
    memset(request, 0, BOC_REQUEST_WORDS * sizeof *request);
    if (!take_identity(text, request + BOC_USER_NETWORK) || !take(text, " ") ||
        !take_number(text, BOC_SERVICE_SHORT_DATA + 1, &request[BOC_REQUEST_SERVICE]) ||
        request[BOC_REQUEST_SERVICE] == BOC_SERVICE_ALL)
        return false;
    if (take(text, " t ")) {
        request[BOC_DESTINATION] = BOC_TO_IDENTITY;
        if (!take_identity(text, request + BOC_NETWORK))
            return false;
    } else {
        request[BOC_DESTINATION] = BOC_TO_NUMBER;
        if (!take(text, " n ") || !take_digits(text, &request[BOC_LENGTH], request + BOC_DIGITS))
            return false;
    }
    if (take(text, " -"))
        return true;
    request[BOC_GROUP_GIVEN] = 1;
    return take(text, " ") && take_identity(text, request + BOC_GROUP_NETWORK);
}

const char *service_words(uint32_t service)
{
    switch (service) {
    case BOC_SERVICE_ALL: return "all";
    case BOC_SERVICE_SPEECH: return "circuit mode speech";
    case BOC_SERVICE_DATA: return "circuit mode data";
    default: return "short data";
    }
}

const char *result_words(uint32_t result)
{
    switch (result) {
    case BOC_RESULT_FAILED: return "the request failed";
    case BOC_RESULT_IDENTITIES: return "identities are provided";
    case BOC_RESULT_NUMBERS: return "external numbers are provided";
    case BOC_RESULT_NOT_AUTHORIZED: return "the user is not authorized";
    case BOC_RESULT_UNKNOWN_USER: return "the affected user is unknown";
    case BOC_RESULT_NOT_VALID: return "the parameters are not valid";
    default: return "insufficient information";
    }
}

const char *delivery_words(uint32_t status)
{
    switch (status) {
    case 0: return "not requested";
    case 1: return "pending";
    case 2: return "acknowledged";
    default: return "unknown";
    }
}
