/* What is said on standard error. */
#include <errno.h>
#include <stdarg.h>
#include <string.h>
#include <unistd.h>

#include "command.h"

/* Whether the last line on the terminal is one of progress. */
static bool in_progress;

static void end_progress(void)
{
    if (in_progress)
        fputs("\r\033[K", stderr);
    in_progress = false;
}

void complain(const char *format, ...)
{
    va_list words;

    end_progress();
    fputs("boc: ", stderr);
    va_start(words, format);
    vfprintf(stderr, format, words);
    va_end(words);
    fputc('\n', stderr);
}

void complain_of(const char *file, const char *what)
{
    complain("%s: %s: %s", file, what, strerror(errno));
}

void progress(const char *format, ...)
{
    va_list words;

    if (!isatty(STDERR_FILENO))
        return;
    end_progress();
    va_start(words, format);
    vfprintf(stderr, format, words);
    va_end(words);
    in_progress = true;
}

bool printed(void)
{
    end_progress();
    if (fflush(stdout) == 0 && !ferror(stdout))
        return true;
    complain_of("standard output", "cannot be written");
    return false;
}
