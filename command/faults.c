/*
 * What is wrong with an archive, in words. The library has refused it; this finds the words by docs/FORMAT.md, and
 * decides nothing.
 */
#include <stdarg.h>

#include "command.h"

enum { HEADER_BYTES = 5, ENTRY_BYTES = 11 };

__attribute__((format(printf, 2, 3))) static void say(char words[WORDS], const char *format, ...)
{
    va_list values;

    va_start(values, format);
    vsnprintf(words, WORDS, format, values);
    va_end(values);
}

static uint32_t number_at(const uint8_t *bytes, size_t count)
{
    uint32_t number = 0;

    while (count-- > 0)
        number = number << 8 | *bytes++;
    return number;
}

/* Where entries of the contents begin, and after the last of them the bodies. */
static size_t entry_place(size_t index)
{
    return HEADER_BYTES + ENTRY_BYTES * index;
}

/* An entry of the contents, which is there. */
static struct entry listed(const struct archive *archive, size_t index)
{
    const uint8_t *at = archive->bytes + entry_place(index);

    return (struct entry){{number_at(at, 3), number_at(at + 3, 3), at[6]}, number_at(at + 7, 2), number_at(at + 9, 2)};
}

/* What is wrong with an entry of the contents. */
static bool contents_fault(const struct archive *archive, size_t index, char words[WORDS])
{
    struct entry entry = listed(archive, index), before = index > 0 ? listed(archive, index - 1) : entry;

    if (entry.key.part != BOC_IDENTITY_PART && entry.key.part != BOC_NUMBER_PART)
        say(words, "entry %zu is of part %u, and there are parts 1 and 2", index, (unsigned)entry.key.part);
    else if (index > 0 && key_order(&entry.key, &before.key) <= 0)
        say(words, "entry %zu, %u/%u part %u, is not above the one before it", index, (unsigned)entry.key.network,
            (unsigned)entry.key.ssi, (unsigned)entry.key.part);
    else
        return false;
    return true;
}

/* What is wrong with header, contents or length. */
static void shape_fault(const struct archive *archive, char words[WORDS])
{
    size_t count, index, due;

    if (archive->length > BOC_ARCHIVE_BYTES) {
        say(words, "it has more than %d bytes", BOC_ARCHIVE_BYTES);
        return;
    }
    if (archive->length < HEADER_BYTES) {
        say(words, "it ends early: %zu bytes are there, and the header has %d", archive->length, HEADER_BYTES);
        return;
    }
    count = number_at(archive->bytes + 3, 2);
    due = entry_place(count);
    if (count > BOC_ARCHIVE_ENTRIES) {
        say(words, "its header speaks of %zu entries, and at most %d are held", count, BOC_ARCHIVE_ENTRIES);
        return;
    }
    if (archive->length < due) {
        say(words, "it ends early: %zu bytes are there, and header and contents of %zu entries have %zu",
            archive->length, count, due);
        return;
    }
    for (index = 0; index < count; index++) {
        if (contents_fault(archive, index, words))
            return;
        due += (listed(archive, index).bits + 7) / 8;
    }
    say(words, "it %s: %zu bytes are there, and its %zu entries need %zu",
        archive->length < due ? "ends early" : "goes on after its end", archive->length, count, due);
}

/* What is wrong with the body of an entry, where header, contents and length are right. */
static void body_fault(const struct archive *archive, size_t index, char words[WORDS])
{
    struct entry entry = listed(archive, index);
    const uint8_t *body = archive->bytes + entry_place(number_at(archive->bytes + 3, 2));
    uint32_t record[BOC_RECORD_WORDS], number;
    size_t place;

    for (size_t i = 0; i < index; i++)
        body += (listed(archive, i).bits + 7) / 8;
    number = boc_read(body, (entry.bits + 7) / 8, entry.bits, record, BOC_RECORD_WORDS, &place);
    if (number == BOC_OK)
        say(words, "entry %zu, %u/%u part %u, holds a PDU that is not this user's, or no answer for this part", index,
            (unsigned)entry.key.network, (unsigned)entry.key.ssi, (unsigned)entry.key.part);
    else if (place == BOC_NOWHERE)
        say(words, "entry %zu, %u/%u part %u, holds no PDU: %s", index, (unsigned)entry.key.network,
            (unsigned)entry.key.ssi, (unsigned)entry.key.part, boc_refusal_text(number));
    else
        say(words, "entry %zu, %u/%u part %u, holds no PDU: %s, at bit %zu", index, (unsigned)entry.key.network,
            (unsigned)entry.key.ssi, (unsigned)entry.key.part, boc_refusal_text(number), place);
}

void fault_words(const struct archive *archive, const struct spot *spot, char words[WORDS])
{
    if (spot->entry == BOC_NOWHERE)
        shape_fault(archive, words);
    else
        body_fault(archive, spot->entry, words);
}
