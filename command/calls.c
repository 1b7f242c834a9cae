/* The calls of the library on an archive in memory. Each stands here once. */
#include <string.h>

#include "command.h"

static size_t bytes_for(size_t bits)
{
    return (bits + 7) / 8;
}

void archive_empty(uint32_t home, struct archive *archive)
{
    if (boc_empty(home, archive->bytes, BOC_ARCHIVE_BYTES, &archive->length) != BOC_OK)
        archive->length = 0;
}

/* What boc_entry answers. */
static uint32_t entry_at(const struct archive *archive, size_t index, struct entry *entry, struct spot *spot)
{
    uint32_t key[BOC_KEY_WORDS];
    uint32_t number = boc_entry(archive->bytes, archive->length, index, key, BOC_KEY_WORDS, &entry->bits, &entry->day,
                                &spot->entry, &spot->place);

    if (number == BOC_OK)
        entry->key = (struct key){key[BOC_KEY_NETWORK], key[BOC_KEY_SSI], key[BOC_KEY_PART]};
    return number;
}

/* No archive has an entry of this index, so that only its own fault can be told. */
uint32_t archive_check(const struct archive *archive, struct spot *spot)
{
    struct entry entry;

    return entry_at(archive, BOC_ARCHIVE_ENTRIES, &entry, spot) == BOC_ARCHIVE ? BOC_ARCHIVE : BOC_OK;
}

uint32_t archive_home(const struct archive *archive)
{
    return (uint32_t)archive->bytes[0] << 16 | (uint32_t)archive->bytes[1] << 8 | archive->bytes[2];
}

bool archive_entry(const struct archive *archive, size_t index, struct entry *entry)
{
    struct spot spot = {BOC_NOWHERE, BOC_NOWHERE};

    return entry_at(archive, index, entry, &spot) == BOC_OK;
}

size_t archive_count(const struct archive *archive)
{
    return (size_t)archive->bytes[3] << 8 | archive->bytes[4];
}

uint32_t archive_capture(const struct archive *archive, const struct pdu *pdu, uint32_t day, struct archive *next,
                         struct spot *spot)
{
    return boc_capture(archive->bytes, archive->length, pdu->bytes, pdu->length, pdu->bits, day, next->bytes,
                       BOC_ARCHIVE_BYTES, &next->length, &spot->entry, &spot->place);
}

uint32_t archive_restore(const struct archive *archive, const struct key *key, struct pdu *pdu, uint32_t *day)
{
    struct spot spot = {BOC_NOWHERE, BOC_NOWHERE};
    uint32_t number = boc_restore(archive->bytes, archive->length, key->network, key->ssi, key->part, pdu->bytes,
                                  sizeof pdu->bytes, &pdu->bits, day, &spot.entry, &spot.place);

    if (number == BOC_OK)
        pdu->length = bytes_for(pdu->bits);
    return number;
}

uint32_t archive_reload(const struct archive *archive, const struct key *key, const struct definition *definition,
                        struct pdu *pdu)
{
    struct spot spot = {BOC_NOWHERE, BOC_NOWHERE};
    uint32_t number;

    if (key->part == BOC_NUMBER_PART)
        number = boc_reload_external(archive->bytes, archive->length, key->network, key->ssi, definition->type,
                                     definition->delivery, definition->acknowledgement, pdu->bytes, sizeof pdu->bytes,
                                     &pdu->bits, &spot.entry, &spot.place);
    else
        number = boc_reload(archive->bytes, archive->length, key->network, key->ssi, key->part, definition->type,
                            definition->delivery, definition->acknowledgement, pdu->bytes, sizeof pdu->bytes,
                            &pdu->bits, &spot.entry, &spot.place);
    if (number == BOC_OK)
        pdu->length = bytes_for(pdu->bits);
    return number;
}

uint32_t archive_decide(const struct archive *archive, const uint32_t request[BOC_REQUEST_WORDS], uint32_t *decision)
{
    struct spot spot = {BOC_NOWHERE, BOC_NOWHERE};

    return boc_decide_in_place(archive->bytes, archive->length, request, BOC_REQUEST_WORDS, decision, &spot.entry,
                               &spot.place);
}

uint32_t pdu_read(const struct pdu *pdu, uint32_t record[BOC_RECORD_WORDS], size_t *place)
{
    return boc_read(pdu->bytes, pdu->length, pdu->bits, record, BOC_RECORD_WORDS, place);
}

bool record_key(const uint32_t record[BOC_RECORD_WORDS], uint32_t home, struct key *key)
{
    const uint32_t *user = record + boc_identity_at(BOC_AFFECTED, 0);

    key->network = user[BOC_ENTRY_EXTENSION_PRESENT] ? user[BOC_ENTRY_EXTENSION] : home;
    key->ssi = user[BOC_ENTRY_SSI];
    key->part = record[BOC_RESULT] == BOC_RESULT_NUMBERS ? BOC_NUMBER_PART : BOC_IDENTITY_PART;
    return record[BOC_PDU_TYPE] == BOC_INTERROGATE_ACK && record[BOC_AFFECTED] == 1 &&
           (record[BOC_RESULT] == BOC_RESULT_IDENTITIES || record[BOC_RESULT] == BOC_RESULT_NUMBERS);
}

int key_order(const struct key *a, const struct key *b)
{
    if (a->network != b->network)
        return a->network < b->network ? -1 : 1;
    if (a->ssi != b->ssi)
        return a->ssi < b->ssi ? -1 : 1;
    return (int)a->part - (int)b->part;
}

bool pdu_same(const struct pdu *a, const struct pdu *b)
{
    return a->bits == b->bits && a->length == b->length && memcmp(a->bytes, b->bytes, a->length) == 0;
}
