/* The command `boc`: finds the subcommand, takes its words apart, runs it. release/boc.1 is its manual. */
#include <fcntl.h>
#include <string.h>
#include <unistd.h>

#include "command.h"

enum { TAKES_HELP = 1U << HELP };

static const struct command {
    const char *name;
    enum status (*run)(const struct arguments *arguments);
    size_t least, most; /* how many words it takes */
    unsigned options;   /* which options it takes, a bit each */
    const char *usage;
    const char *help;
} commands[] = {
    {"file", run_file, 1, 1, TAKES_HELP | 1U << HOME | 1U << DAY | 1U << EXPECT | 1U << JSON,
     "ARCHIVE [--home N] [--day D] [--expect USERS] [--json] <PDUS",
     "Files the PDUs on standard input, a line `BITS HEX` each, reads the new archive back from the disk, restores\n"
     "all, compares, and only then replaces the archive and its hash and says `complete`.\n"
     "  --home N        makes the first archive, of home network N\n"
     "  --day D         the day of the PDUs, a number or YYYY-MM-DD; otherwise the clock's, in UTC\n"
     "  --expect USERS  a file of lines `NETWORK SSI PART`, each of which must have an answer of this day\n"
     "  --json          the report as JSON\n"},
    {"list", run_list, 1, 1, TAKES_HELP | 1U << JSON, "ARCHIVE [--json]",
     "Lists what is held: user, part, bit length, day and date.\n"
     "  --json          the list as JSON\n"},
    {"check", run_check, 1, 1, TAKES_HELP | 1U << JSON, "ARCHIVE [--json]",
     "Says whether it is an archive, what is wrong with it and where, and whether the hash beside it agrees.\n"
     "  --json          the finding as JSON\n"},
    {"show", run_show, 4, 4, TAKES_HELP, "ARCHIVE NETWORK SSI PART",
     "Shows a held part in words: services, groups, restricted, exceptions.\n"},
    {"restore", run_restore, 4, 4, TAKES_HELP, "ARCHIVE NETWORK SSI PART",
     "Prints the PDU of a held part as it came in: `BITS HEX`.\n"},
    {"reload", run_reload, 4, 4,
     TAKES_HELP | 1U << ADD | 1U << REPLACE | 1U << REMOVE | 1U << DELIVER | 1U << ACKNOWLEDGE,
     "ARCHIVE NETWORK SSI PART [--add | --replace | --remove] [--deliver [--acknowledge]]",
     "Prints the PDU that puts a held part back into a switch, a DEFINE or, for a number part, a DEFINE EXTERNAL.\n"
     "  --add           an addition to what the switch has\n"
     "  --replace       a replacement of it, as without any of these three\n"
     "  --remove        a removal, which carries no list\n"
     "  --deliver       has the switch deliver it to the user\n"
     "  --acknowledge   and the user acknowledge it\n"},
    {"decide", run_decide, 2, 9, TAKES_HELP, "ARCHIVE CALL",
     "Decides a call, `NETWORK SSI SERVICE`, then `t NETWORK SSI` or `n DIGITS`, then the group's `NETWORK SSI` or\n"
     "`-`, in one word or several. Ends with status 0 only if the call is allowed.\n"},
    {"drill", run_drill, 2, 2, TAKES_HELP, "ARCHIVE CALLS",
     "Decides each line of a file, a call and the answer that is expected (`allowed`, `barred CAUSE`, `missing`):\n"
     "`ok`, `got` and the answer, or `bad line`, and the totals.\n"},
    {"compare", run_compare, 2, 2, TAKES_HELP, "OLD NEW",
     "Says which parts were added, were changed (contents, or the day alone) or are gone.\n"},
};

enum { COMMANDS = sizeof commands / sizeof commands[0] };

static void help(void)
{
    printf("usage:\n");
    for (size_t i = 0; i < COMMANDS; i++)
        printf("  boc %s %s\n", commands[i].name, commands[i].usage);
    printf("  boc --help | --version\n  boc COMMAND --help\n"
           "Status: 0 all is well; 1 something is refused, missing, not held, barred or different; 2 wrong call;\n"
           "3 a file cannot be read or written or is no archive. The manual: boc(1).\n");
}

/* Runs a subcommand on the words after its name. */
static enum status run(const struct command *command, char *const words[])
{
    struct arguments arguments = {0};

    if (!arguments_from(command->name, words, command->options, &arguments))
        return WRONG_CALL;
    if (arguments.given[HELP]) {
        printf("usage: boc %s %s\n%s", command->name, command->usage, command->help);
        return FINE;
    }
    if (arguments.count < command->least || arguments.count > command->most) {
        complain("usage: boc %s %s", command->name, command->usage);
        return WRONG_CALL;
    }
    return command->run(&arguments);
}

static enum status run_words(char *const words[])
{
    if (words[0] != NULL && strcmp(words[0], "--help") == 0) {
        help();
        return FINE;
    }
    if (words[0] != NULL && strcmp(words[0], "--version") == 0) {
        printf("boc %s\n", BOC_VERSION);
        return FINE;
    }
    for (size_t i = 0; words[0] != NULL && i < COMMANDS; i++)
        if (strcmp(words[0], commands[i].name) == 0)
            return run(&commands[i], words + 1);
    complain("%s: boc --help names the commands", words[0] == NULL ? "no command" : words[0]);
    return WRONG_CALL;
}

/* Where a standard stream is closed, a file that is opened would take its place: nothing is read or written there. */
static bool occupy_streams(void)
{
    int file;

    do
        file = open("/dev/null", O_RDONLY);
    while (file >= 0 && file <= STDERR_FILENO);
    if (file >= 0 && close(file) == 0)
        return true;
    complain_of("/dev/null", "cannot be opened");
    return false;
}

int main(int count, char *words[])
{
    enum status status;

    (void)count;
    if (!occupy_streams())
        return NO_FILE;
    status = words[0] == NULL ? WRONG_CALL : run_words(words + 1);
    return printed() ? (int)status : NO_FILE;
}
