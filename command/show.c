/* `boc show`, `boc restore` and `boc reload`: one held part, in words, as it came in, and as it goes back. */
#include "command.h"

static struct archive archive;

/* Loads an archive, and takes a key from the words after its name. */
static enum status load_for(const struct arguments *arguments, struct key *key)
{
    if (!key_from(arguments->words + 1, key))
        return WRONG_CALL;
    return load(arguments->words[0], &archive);
}

/* Says of a part why it cannot be had. */
static enum status not_had(const struct arguments *arguments, const struct key *key, uint32_t number)
{
    complain("%s: %u/%u part %u: refused %u: %s", arguments->words[0], (unsigned)key->network, (unsigned)key->ssi,
             (unsigned)key->part, (unsigned)number, number == BOC_NOT_HELD ? "not held" : boc_refusal_text(number));
    return NOT_FINE;
}

/* An identity: without extension it is of the user's network. */
static void show_identity(const uint32_t *entry, uint32_t network)
{
    printf("%u/%u", (unsigned)(entry[BOC_ENTRY_EXTENSION_PRESENT] ? entry[BOC_ENTRY_EXTENSION] : network),
           (unsigned)entry[BOC_ENTRY_SSI]);
}

static void show_number(const uint32_t *entry)
{
    for (uint32_t i = 0; i < entry[BOC_ENTRY_LENGTH]; i++)
        putchar("0123456789*#+"[entry[BOC_ENTRY_DIGITS + i]]);
}

static void show_identities(const char *title, const uint32_t *record, size_t list, uint32_t network)
{
    bool range = record[list] == BOC_FIRST_AND_LAST;
    size_t count = range ? 2 : record[list];

    printf("%s:%s", title, count == 0 ? " none" : "");
    for (size_t i = 0; i < count; i++) {
        printf("%s ", i == 0 ? "" : range ? " to" : ",");
        show_identity(record + boc_identity_at(list, i), network);
    }
    printf("\n");
}

static void show_numbers(const char *title, const uint32_t *record, size_t list)
{
    printf("%s:%s", title, record[list] == 0 ? " none" : "");
    for (size_t i = 0; i < record[list]; i++) {
        printf("%s ", i == 0 ? "" : ",");
        show_number(record + boc_number_at(list, i));
    }
    printf("\n");
}

static void show_services(const uint32_t *record)
{
    printf("services:");
    for (size_t i = 0; i < record[BOC_SERVICE_COUNT]; i++)
        printf("%s %s", i == 0 ? "" : ",", service_words(record[BOC_SERVICES + i]));
    printf("\n");
}

enum status run_show(const struct arguments *arguments)
{
    uint32_t record[BOC_RECORD_WORDS], day, number;
    struct pdu pdu;
    struct key key;
    char date[DATE];
    size_t place;
    enum status status = load_for(arguments, &key);

    if (status != FINE)
        return status;
    number = archive_restore(&archive, &key, &pdu, &day);
    if (number == BOC_OK)
        number = pdu_read(&pdu, record, &place);
    if (number != BOC_OK)
        return not_had(arguments, &key, number);
    printf("user: %u/%u\n", (unsigned)key.network, (unsigned)key.ssi);
    printf("part: %u, %s part, %zu bits\n", (unsigned)key.part, key.part == BOC_NUMBER_PART ? "number" : "identity",
           pdu.bits);
    printf("day: %u, %s\n", (unsigned)day, date_of(day, date));
    printf("delivery: %s\n", delivery_words(record[BOC_DELIVERY_STATUS]));
    show_services(record);
    show_identities("groups", record, BOC_GROUPS, key.network);
    if (key.part == BOC_NUMBER_PART) {
        show_numbers("restricted", record, BOC_RESTRICTED_NUMBERS);
        show_numbers("exceptions", record, BOC_EXCEPTED_NUMBERS);
    } else {
        show_identities("restricted", record, BOC_RESTRICTED, key.network);
        show_identities("exceptions", record, BOC_EXCEPTIONS, key.network);
    }
    return FINE;
}

enum status run_restore(const struct arguments *arguments)
{
    struct pdu pdu;
    struct key key;
    uint32_t day, number;
    enum status status = load_for(arguments, &key);

    if (status != FINE)
        return status;
    number = archive_restore(&archive, &key, &pdu, &day);
    if (number != BOC_OK)
        return not_had(arguments, &key, number);
    print_pdu(&pdu);
    return FINE;
}

/* The definition that options ask for: a replacement, where they name none. */
static bool definition_from(const struct arguments *arguments, struct definition *definition)
{
    const char *const *given = arguments->given;

    if ((given[ADD] != NULL) + (given[REPLACE] != NULL) + (given[REMOVE] != NULL) > 1) {
        complain("reload: only one of --add, --replace and --remove can be given");
        return false;
    }
    if (given[ACKNOWLEDGE] && !given[DELIVER]) {
        complain("reload: --acknowledge needs --deliver");
        return false;
    }
    definition->type = given[ADD] ? BOC_ADDITION : given[REMOVE] ? BOC_REMOVAL : BOC_REPLACEMENT;
    definition->delivery = given[DELIVER] != NULL;
    definition->acknowledgement = given[ACKNOWLEDGE] != NULL;
    return true;
}

enum status run_reload(const struct arguments *arguments)
{
    struct definition definition;
    struct pdu pdu;
    struct key key;
    uint32_t number;
    enum status status;

    if (!definition_from(arguments, &definition))
        return WRONG_CALL;
    status = load_for(arguments, &key);
    if (status != FINE)
        return status;
    number = archive_reload(&archive, &key, &definition, &pdu);
    if (number != BOC_OK)
        return not_had(arguments, &key, number);
    print_pdu(&pdu);
    return FINE;
}
