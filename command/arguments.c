/* The words of the call. */
#include <string.h>

#include "command.h"

/* The options, in the order of enum option, and which of them take a value. */
static const struct {
    const char *name;
    bool valued;
} options[OPTIONS] = {
    {"--home", true},     {"--day", true},     {"--expect", true},       {"--json", false}, {"--add", false},
    {"--replace", false}, {"--remove", false}, {"--deliver", false}, {"--acknowledge", false}, {"--help", false},
};

/* The option that a word names, and its value if that follows after `=`. */
static enum option option_of(const char *word, const char **value)
{
    size_t length = strcspn(word, "=");
    enum option option;

    *value = word[length] == '=' ? word + length + 1 : NULL;
    for (option = 0; option < OPTIONS; option++)
        if (strlen(options[option].name) == length && strncmp(word, options[option].name, length) == 0)
            break;
    return option;
}

/* Takes the option at the front of the words; moves behind it. */
static bool take_option(const char *command, char *const **words, unsigned taken, struct arguments *arguments)
{
    const char *word = *(*words)++, *value;
    enum option option = option_of(word, &value);

    if (strncmp(word, "--room", 6) == 0) {
        complain("%s: --room: archives of rooms are not read", command);
        return false;
    }
    if (option == OPTIONS || !(taken >> option & 1)) {
        complain("%s: there is no option %s", command, word);
        return false;
    }
    if (options[option].valued && value == NULL)
        value = **words == NULL ? NULL : *(*words)++;
    if (options[option].valued != (value != NULL)) {
        complain("%s: %s %s", command, options[option].name, value == NULL ? "needs a value" : "takes no value");
        return false;
    }
    if (arguments->given[option] != NULL) {
        complain("%s: %s is given twice", command, options[option].name);
        return false;
    }
    arguments->given[option] = value == NULL ? "" : value;
    return true;
}

bool arguments_from(const char *command, char *const words[], unsigned taken, struct arguments *arguments)
{
    enum { MOST = sizeof arguments->words / sizeof arguments->words[0] };
    bool plain = false;

    while (*words != NULL) {
        if (!plain && strcmp(*words, "--") == 0) {
            plain = true;
            words++;
        } else if (!plain && (*words)[0] == '-' && (*words)[1] != '\0') {
            if (!take_option(command, &words, taken, arguments))
                return false;
        } else if (arguments->count == MOST) {
            complain("%s: too many words", command);
            return false;
        } else {
            arguments->words[arguments->count++] = *words++;
        }
    }
    return true;
}

bool key_from(const char *const words[3], struct key *key)
{
    if (!number_from(words[0], BOC_NETWORK_LIMIT, &key->network))
        complain("%s: a network is a number from 0 to %d", words[0], BOC_NETWORK_LIMIT - 1);
    else if (!number_from(words[1], BOC_NETWORK_LIMIT, &key->ssi))
        complain("%s: an SSI is a number from 0 to %d", words[1], BOC_NETWORK_LIMIT - 1);
    else if (!number_from(words[2], BOC_NUMBER_PART + 1, &key->part) || key->part == 0)
        complain("%s: a part is 1, the identity part, or 2, the number part", words[2]);
    else
        return true;
    return false;
}
