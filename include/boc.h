/*
 * boc.h: barring of outgoing calls (BOC), EN 300 392-12-18. Reads and writes the nine BOC PDUs, keeps INTERROGATE ACKs
 * in an archive, restores them, reloads them as DEFINEs or DEFINE EXTERNALs, and decides calls from them. Keeps a
 * terminal's table of service profiles by +CTSP lines (EN 300 392-5).
 * Link libboc.a or libboc.so (-lboc). docs/USING.md shows how.
 *
 * Every call returns 0, or the number of a refusal (enum boc_refusal); the inline functions, which give words and
 * places, refuse nothing. What a call answers besides, a length, a day or a decision, goes through `length`, `bits`,
 * `day` or `decision`. A refused call changes no byte of any buffer and leaves what is behind these pointers as it was;
 * an accepted one leaves the bytes after what it wrote.
 *
 * Where it stopped. `place` is the place of a bit in a PDU and `entry` the index of an entry in an archive, both from
 * 0. A refused call writes those of the two that it has, BOC_NOWHERE where the refusal brings none; an accepted one
 * leaves them as they were.
 * - BOC_SHORT: the place of the element that is not there whole, which may be the PDU's length.
 * - BOC_VALUE: the place of the element that is refused.
 * - BOC_ENDS: the place of the second end's SSI.
 * - BOC_LEFT: the place of the first bit left.
 * - BOC_ARCHIVE, where header, contents and the archive's length are right: the first entry whose body is at fault, and
 *   the place in that body where boc_read would bring one. BOC_FRAME brings none, and a bit length over 4,096 is that;
 *   nor does a legal body that no entry, or not this one, may hold.
 * - BOC_ARCHIVE otherwise, and every other refusal: neither.
 * An element's place is that of its first bit.
 *
 * Buffers. A buffer is a pointer and a length, in bytes or in words of 32 bits. The pointer is valid for that length
 * and aligned for its type; at length 0 it may be any pointer, NULL included, for nothing is read or written through
 * it. The pointers to a single number, through which lengths, days, decisions, entries and places go, are never NULL,
 * whether the call will be refused or not. What a call writes may not overlap anything else that it is lent.
 *
 * At the same time. Nothing is allocated, no operating system is called, and nothing is kept between calls or shared by
 * them. Calls may run at the same time on one archive, PDU, record or request, as long as nobody changes it; what a
 * call writes is its own until it returns.
 *
 * Stack. No function calls itself or has a frame of varying size. boc_decide, which unpacks a record, needs at most
 * 5 KiB of stack, boc_reload and boc_reload_external, which make a second one of it, 6 KiB, every other call at most
 * 1 KiB: the tests refuse more (docs/BENCHMARKS.md has what was measured).
 *
 * PDU. A PDU is a number of bits, most significant bit first, in exactly that number divided by 8, rounded up, of
 * bytes; unused bits at the end are zero. Who has only the bytes, n of them, tries the bit lengths 8 * n - 7 to 8 * n:
 * at most one of them is accepted.
 *
 * Archive. An archive is exactly the bytes that were written: lend the first N bytes of the buffer, where N is the
 * length that boc_empty or boc_capture gave. One byte more or less is no archive and gives BOC_ARCHIVE.
 * It has no checksum: keep a hash beside the file, and look at it before use (docs/USING.md).
 *
 * Day. A PDU is captured under a day, a number of at most 65,535 that tells how old it is, and is restored and listed
 * with it. Nothing else depends on it. What it counts from is the caller's business; days since 1970-01-01, which reach
 * to 2149-06-06, are recommended.
 */
#ifndef BOC_H
#define BOC_H

#include <stddef.h>
#include <stdint.h>

/* The release that this header is of. */
#define BOC_VERSION "1.1.0"

/* Has a compiler that can do so warn where the answer of a call is not looked at. */
#ifdef __GNUC__
#define BOC_CHECKED __attribute__((warn_unused_result))
#else
#define BOC_CHECKED
#endif

#ifdef __cplusplus
extern "C" {
#endif

/* Why a call was refused. There is no 10, 13 or 14. */
enum boc_refusal {
    BOC_OK = 0,        /* not refused */
    BOC_FRAME = 1,     /* over 4,096 bits, wrong byte count, or a nonzero unused bit */
    BOC_SHORT = 2,     /* the PDU ends inside an element, or just before one that is due */
    BOC_VALUE = 3,     /* an element's value is reserved or refused; in writing also what must be zero and is not */
    BOC_ENDS = 4,      /* range ends disagree or are reversed */
    BOC_LEFT = 5,      /* bits left after the last element */
    BOC_UNFIT = 6,     /* a legal PDU that no archive entry may hold */
    BOC_ARCHIVE = 7,   /* the archive breaks a rule */
    BOC_ROOM = 8,      /* a new key with 512 held, or the result exceeds 65,536 bytes or the lent buffer */
    BOC_RANGE = 9,     /* a request, user, part, definition, home network, day, table or word count out of its range */
    BOC_NOT_HELD = 11, /* restore, reload: not held; entry: none has this index */
    BOC_LOSS = 12,     /* reload: a held list that is not empty has no place in the PDU */
    BOC_SYNTAX = 15,   /* a terminal's line that is none */
    BOC_FIELD = 16,    /* a terminal's line: a field's value is not one of its values */
    BOC_SURPLUS = 17   /* a terminal's line: a third field that its layer does not take, or a fourth */
};

/*
 * Several reasons. BOC_UNFIT, BOC_ARCHIVE, BOC_ROOM and BOC_RANGE have more than one each: docs/USING.md says how to
 * tell them apart.
 */

/* The words of enum boc_refusal for what a call returned. */
static inline const char *boc_refusal_text(uint32_t number)
{
    switch (number) {
    case BOC_OK: return "not refused";
    case BOC_FRAME: return "over 4,096 bits, wrong byte count, or a nonzero unused bit";
    case BOC_SHORT: return "the PDU ends inside an element, or just before one that is due";
    case BOC_VALUE: return "an element's value is reserved or refused; in writing also what must be zero and is not";
    case BOC_ENDS: return "range ends disagree or are reversed";
    case BOC_LEFT: return "bits left after the last element";
    case BOC_UNFIT: return "a legal PDU that no archive entry may hold";
    case BOC_ARCHIVE: return "the archive breaks a rule";
    case BOC_ROOM: return "a new key with 512 held, or the result exceeds 65,536 bytes or the lent buffer";
    case BOC_RANGE: return "a request, user, part, definition, home network, day, table or word count out of its range";
    case BOC_NOT_HELD: return "restore, reload: not held; entry: none has this index";
    case BOC_LOSS: return "reload: a held list that is not empty has no place in the PDU";
    case BOC_SYNTAX: return "a terminal's line that is none";
    case BOC_FIELD: return "a terminal's line: a field's value is not one of its values";
    case BOC_SURPLUS: return "a terminal's line: a third field that its layer does not take, or a fourth";
    }
    return "no refusal has this number";
}

/* The entry or the place of a refusal that has none. */
#define BOC_NOWHERE SIZE_MAX

/* Lengths that serve every case. */
enum boc_limits {
    BOC_PDU_BYTES = 307,          /* the longest PDU that is read or written, 2,456 bits */
    BOC_ARCHIVE_BYTES = 65536,    /* the longest archive */
    BOC_ARCHIVE_ENTRIES = 512,    /* the most entries of an archive */
    BOC_CONTENTS_BYTES = 23066,   /* no listing is longer: 26 bytes, and 45 for each entry */
    BOC_NETWORK_LIMIT = 16777216, /* networks and SSIs are below this */
    BOC_DAY_LIMIT = 65536,        /* days are below this */
    BOC_LIST_PLACES = 8,          /* entries of a list */
    BOC_DIGIT_PLACES = 24,        /* digits of an external number */
    BOC_SERVICE_PLACES = 7,       /* services of a record */
    BOC_TABLE_BYTES = 269,        /* the table of a terminal */
    BOC_TABLE_TEXT_BYTES = 2300   /* no text of a table is longer */
};

/* ---- Records: a PDU as 520 words ---------------------------------------------------------------------------------
 *
 * A list of identities is a range type and 8 entries of SSI, extension present (0 or 1), extension: boc_identity_at
 * says where an entry begins. A list of external numbers is a range type and 8 entries of length and 24 digits:
 * boc_number_at says it. Range type 0 is an empty list, 1 to 8 that many entries, and 9 the first and the last of a
 * range, both included. Affected users are empty exactly in the PDUs without them; external numbers have no range.
 *
 * An extension is the identity's network. Without one, an affected user is of the archive's home network, and a closed
 * user group, a restricted or an excepted identity is of the network of the PDU's affected user.
 *
 * A list that the PDU does not carry has range type 0; any other element that it does not carry, unused places of
 * entries, services and digits, and an absent extension are zero. A word that is wider than its element is a refused
 * value of it.
 *
 * A definition is a DEFINE, DEFINE EXTERNAL, DEFINE USER or DEFINE EXTERNAL USER. A DEFINE EXTERNAL has the lists of a
 * number part, the others have those of an identity part; a removal has none.
 */
enum boc_record_word {
    BOC_PDU_TYPE = 0,              /* enum boc_pdu_type */
    BOC_AFFECTED = 1,              /* affected users, a list of identities; empty in PDUs without them */
    BOC_INTERROGATION_TYPE = 26,   /* of an INTERROGATE: 1 identities, 2 external numbers, 3 both */
    BOC_RESULT = 27,               /* of an INTERROGATE ACK: enum boc_result */
    BOC_DELIVERY_STATUS = 28,      /* of an INTERROGATE ACK: 0 not requested, 1 pending, 2 acknowledged, 3 unknown */
    BOC_SERVICE_COUNT = 29,        /* of an INTERROGATE ACK or a definition: number of services, 1 to 7 */
    BOC_SERVICES = 30,             /* 7 services, enum boc_service */
    BOC_GROUPS = 37,               /* of either part: closed user groups, a list of identities */
    BOC_RESTRICTED = 62,           /* of an identity part: restricted identities, a list of identities */
    BOC_EXCEPTIONS = 87,           /* of an identity part: exceptions to them, a list of identities */
    BOC_RESTRICTED_NUMBERS = 112,  /* of a number part: restricted numbers, a list of external numbers */
    BOC_EXCEPTED_NUMBERS = 313,    /* of a number part: exceptions to them, a list of external numbers */
    BOC_DELIVERY = 514,            /* of a DEFINE or DEFINE EXTERNAL: delivery, 0 not requested, 1 requested */
    BOC_ACKNOWLEDGEMENT = 515,     /* of a definition: acknowledgement, likewise; in those two 1 only with delivery */
    BOC_DEFINITION_TYPE = 516,     /* of a definition: enum boc_definition_type */
    BOC_DEFINITION_RESULT = 517,   /* of a DEFINE ACK: enum boc_definition_result */
    BOC_DISTRIBUTION_RESULT = 518, /* of a DEFINE USER ACK: enum boc_distribution_result */
    BOC_REJECTION_CAUSE = 519,     /* of a CALL BARRED: enum boc_rejection_cause */
    BOC_RECORD_WORDS = 520         /* words of a record */
};

/* The words of an entry, from where it begins, and how many they are. */
enum boc_entry_word {
    BOC_ENTRY_SSI = 0,
    BOC_ENTRY_EXTENSION_PRESENT = 1,
    BOC_ENTRY_EXTENSION = 2,
    BOC_IDENTITY_WORDS = 3,
    BOC_ENTRY_LENGTH = 0,
    BOC_ENTRY_DIGITS = 1,
    BOC_NUMBER_WORDS = 25
};

/* The word of a record at which entry `index` of a list of identities begins. */
static inline size_t boc_identity_at(size_t list, size_t index)
{
    return list + 1 + BOC_IDENTITY_WORDS * index;
}

/* The word of a record at which entry `index` of a list of external numbers begins. */
static inline size_t boc_number_at(size_t list, size_t index)
{
    return list + 1 + BOC_NUMBER_WORDS * index;
}

enum boc_pdu_type {
    BOC_DEFINE = 5,
    BOC_DEFINE_ACK = 6,
    BOC_DEFINE_EXTERNAL = 7,
    BOC_DEFINE_USER = 8,           /* no affected users */
    BOC_DEFINE_USER_ACK = 9,       /* no affected users */
    BOC_DEFINE_EXTERNAL_USER = 10, /* no affected users */
    BOC_INTERROGATE = 11,
    BOC_INTERROGATE_ACK = 12,
    BOC_CALL_BARRED = 13           /* no affected users */
};

/* Definition types. A removal has no lists; 3 is reserved. */
enum boc_definition_type {
    BOC_ADDITION = 0,
    BOC_REPLACEMENT = 1,
    BOC_REMOVAL = 2
};

/* What became of a DEFINE or DEFINE EXTERNAL; 5 is reserved. */
enum boc_definition_result {
    BOC_DEFINITION_FAILED = 0,
    BOC_DEFINITION_ACCEPTED = 1,
    BOC_DEFINITION_CHANGED = 2, /* accepted, but the values were changed */
    BOC_DEFINITION_NOT_AUTHORIZED = 3,
    BOC_DEFINITION_UNKNOWN_IDENTITY = 4,
    BOC_DEFINITION_NOT_VALID = 6,
    BOC_DEFINITION_INSUFFICIENT = 7
};

/* What became of a DEFINE USER or DEFINE EXTERNAL USER; 2 to 5 are reserved. */
enum boc_distribution_result {
    BOC_DISTRIBUTION_FAILED = 0,
    BOC_DISTRIBUTION_RECEIVED = 1,
    BOC_DISTRIBUTION_NOT_VALID = 6,
    BOC_DISTRIBUTION_INSUFFICIENT = 7
};

/* Why a call was barred, by the numbers of the decisions that bar one (enum boc_decision); 3 is reserved. */
enum boc_rejection_cause {
    BOC_CAUSE_GROUP = 0,
    BOC_CAUSE_SERVICE = 1,
    BOC_CAUSE_DESTINATION = 2
};

/* Interrogation results. Only the two that provide something are filed; 5 is reserved. */
enum boc_result {
    BOC_RESULT_FAILED = 0,
    BOC_RESULT_IDENTITIES = 1, /* the PDU is an identity part */
    BOC_RESULT_NUMBERS = 2,    /* the PDU is a number part */
    BOC_RESULT_NOT_AUTHORIZED = 3,
    BOC_RESULT_UNKNOWN_USER = 4,
    BOC_RESULT_NOT_VALID = 6,
    BOC_RESULT_INSUFFICIENT = 7
};

enum boc_service {
    BOC_SERVICE_ALL = 0, /* all applicable; not in a request */
    BOC_SERVICE_SPEECH = 1,
    BOC_SERVICE_DATA = 2,
    BOC_SERVICE_SHORT_DATA = 3
};

/* Digits above 9. */
enum boc_digit {
    BOC_DIGIT_STAR = 10,
    BOC_DIGIT_HASH = 11,
    BOC_DIGIT_PLUS = 12
};

/* The range type of a first and a last entry. */
enum boc_range_type {
    BOC_FIRST_AND_LAST = 9
};

/* ---- Requests: a call as 34 words --------------------------------------------------------------------------------
 *
 * Words that the request does not use are zero: the length and the digits for an identity; network, SSI and the
 * digits after the length for an external number; the group's two words where none is given.
 */
enum boc_request_word {
    BOC_USER_NETWORK = 0,
    BOC_USER_SSI = 1,
    BOC_REQUEST_SERVICE = 2, /* 1 to 3 */
    BOC_DESTINATION = 3,     /* its kind, enum boc_destination */
    BOC_NETWORK = 4,         /* of an identity */
    BOC_SSI = 5,             /* of an identity */
    BOC_LENGTH = 6,          /* of an external number, 1 to 24 digits */
    BOC_DIGITS = 7,          /* 24 digits */
    BOC_GROUP_GIVEN = 31,    /* 0 or 1 */
    BOC_GROUP_NETWORK = 32,
    BOC_GROUP_SSI = 33,
    BOC_REQUEST_WORDS = 34   /* words of a request */
};

/* An identity is judged by the user's identity part, an external number by the number part. */
enum boc_destination {
    BOC_TO_IDENTITY = 1,
    BOC_TO_NUMBER = 2
};

/* The parts that an archive holds for a user. */
enum boc_part {
    BOC_IDENTITY_PART = 1,
    BOC_NUMBER_PART = 2
};

/* The words of a key, under which an archive holds a PDU, and how many they are. */
enum boc_key_word {
    BOC_KEY_NETWORK = 0,
    BOC_KEY_SSI = 1,
    BOC_KEY_PART = 2, /* enum boc_part */
    BOC_KEY_WORDS = 3 /* words of a key */
};

/* Decisions. The first three bar the call, and their numbers are the causes (enum boc_rejection_cause). */
enum boc_decision {
    BOC_BARRED_GROUP = 0,       /* barred: called party outside allowed user group */
    BOC_BARRED_SERVICE = 1,     /* barred: restricted service type */
    BOC_BARRED_DESTINATION = 2, /* barred: restricted destination address */
    BOC_ALLOWED = 3,            /* allowed */
    BOC_PART_NOT_HELD = 4       /* the part that judges the call is not held: this allows nothing */
};

/* The words of enum boc_decision for what boc_decide decided. */
static inline const char *boc_decision_text(uint32_t number)
{
    switch (number) {
    case BOC_BARRED_GROUP: return "barred: called party outside allowed user group";
    case BOC_BARRED_SERVICE: return "barred: restricted service type";
    case BOC_BARRED_DESTINATION: return "barred: restricted destination address";
    case BOC_ALLOWED: return "allowed";
    case BOC_PART_NOT_HELD: return "the part that judges the call is not held: this allows nothing";
    }
    return "no decision has this number";
}

/* ---- Tables: a terminal's profiles as 269 bytes -------------------------------------------------------------------
 *
 * A terminal on the serial port (EN 300 392-5, clause 6.14.4) says by +CTSP lines which services it wants to hear of. A
 * table has a profile for each place: service layer 1, with layer 2, or with the PID where layer 1 is SDS-TL. Packet
 * Data has neither, and one place.
 */
enum boc_profile {
    BOC_PROFILE_MT = 0, /* MT only */
    BOC_PROFILE_TE = 1, /* TE only */
    BOC_PROFILE_BOTH = 2, /* the default */
    BOC_PROFILE_NEITHER = 3
};

/* The byte of a table at which the places of a layer 1 begin. */
enum boc_table_byte {
    BOC_TABLE_CC = 0,           /* layer 1 is 0, layer 2 is 0 (voice) and 1 (data) */
    BOC_TABLE_MM = 2,           /* 1, and 10 (registration) to 14 (energy saving) */
    BOC_TABLE_SDS = 7,          /* 2, and 20 (status) to 24 (SDS type 4) */
    BOC_TABLE_SDS_TL = 12,      /* 3, and the PIDs 0 to 255 */
    BOC_TABLE_PACKET_DATA = 268 /* 4, without a third field */
};

/* ---- Calls ------------------------------------------------------------------------------------------------------- */

/*
 * Reads the PDU of `bits` bits in `pdu` and writes its record to `record`; a refusal writes `place`.
 * Refuses, in this order: BOC_RANGE if record_words is not 520; BOC_FRAME; element by element from the first,
 * BOC_SHORT before BOC_VALUE, and BOC_ENDS after the second end of a range; BOC_LEFT.
 */
BOC_CHECKED
uint32_t boc_read(const uint8_t *pdu, size_t pdu_len, size_t bits, uint32_t *record, size_t record_words,
                  size_t *place);

/*
 * Writes the PDU of a record to the front of `out`, and its length in bits to `bits`.
 * Refuses, in this order: BOC_RANGE if record_words is not 520; BOC_VALUE for a PDU type other than the nine, or for
 * anything that must be zero and is not; element by element BOC_VALUE and BOC_ENDS as reading does; BOC_ROOM.
 */
BOC_CHECKED
uint32_t boc_write(const uint32_t *record, size_t record_words, uint8_t *out, size_t out_len, size_t *bits);

/*
 * Writes the archive of a home network that holds nothing, 5 bytes, to the front of `out`, and its length in bytes to
 * `length`. Refuses, in this order: BOC_RANGE for a home network of 16,777,216 or more; BOC_ROOM.
 */
BOC_CHECKED
uint32_t boc_empty(uint32_t home, uint8_t *out, size_t out_len, size_t *length);

/*
 * Writes to the front of `out` the archive that holds the PDU of `bits` bits in `pdu` too, under this day, and its
 * length in bytes to `length`. A PDU that was held for the same user and part is replaced, whatever its day, and its
 * room is used again; if it is the same PDU, nothing but the two bytes of its day changes.
 * `out` is a second buffer: it may not be the one that `archive` stands in.
 * Refuses, in this order: BOC_RANGE for a day of 65,536 or more; BOC_ARCHIVE; what boc_read refuses of the PDU,
 * BOC_FRAME to BOC_LEFT; BOC_UNFIT unless it is an INTERROGATE ACK with range type 1 for affected users and with
 * identities or numbers as its result; BOC_ROOM. Where the PDU is refused, there is no entry, and `place` is one in it
 * unless by BOC_FRAME, which has none.
 */
BOC_CHECKED
uint32_t boc_capture(const uint8_t *archive, size_t archive_len, const uint8_t *pdu, size_t pdu_len, size_t bits,
                     uint32_t day, uint8_t *out, size_t out_len, size_t *length, size_t *entry, size_t *place);

/*
 * Writes the key of the entry at an index, from 0, to `key` (enum boc_key_word), the length in bits of its PDU to
 * `bits`, and the day under which that was captured to `day`. Entries rise by network, then SSI, then part. Who asks
 * for index 0, 1, 2 and so on until BOC_NOT_HELD, and gives each key to boc_restore, restores all that is held.
 * Refuses, in this order: BOC_RANGE if key_words is not 3; BOC_ARCHIVE; BOC_NOT_HELD if the index is not below the
 * count of entries.
 */
BOC_CHECKED
uint32_t boc_entry(const uint8_t *archive, size_t archive_len, size_t index, uint32_t *key, size_t key_words,
                   size_t *bits, uint32_t *day, size_t *entry, size_t *place);

/*
 * Writes the PDU held for a user and part (enum boc_part) to the front of `out`, its length in bits to `bits`, and the
 * day under which it was captured to `day`.
 * Refuses, in this order: BOC_RANGE for a network or SSI of 16,777,216 or more, or a part other than the two;
 * BOC_ARCHIVE; BOC_NOT_HELD; BOC_ROOM.
 */
BOC_CHECKED
uint32_t boc_restore(const uint8_t *archive, size_t archive_len, uint32_t network, uint32_t ssi, uint32_t part,
                     uint8_t *out, size_t out_len, size_t *bits, uint32_t *day, size_t *entry, size_t *place);

/*
 * Writes the part held for a user to the front of `out` as a DEFINE, and its length in bits to `bits`: the affected
 * user, the services and the lists as they are held, under a definition type (enum boc_definition_type), delivery and
 * acknowledgement (0 or 1). Of a number part these are its groups, and both lists of identities are empty.
 * Refuses, in this order: BOC_RANGE as boc_restore does, and for a definition type over 2, a delivery or
 * acknowledgement over 1, or an acknowledgement without delivery; BOC_ARCHIVE; BOC_NOT_HELD; BOC_LOSS for a list of
 * numbers that is not empty, which no DEFINE has, and for any list that is not empty under a removal; BOC_ROOM.
 */
BOC_CHECKED
uint32_t boc_reload(const uint8_t *archive, size_t archive_len, uint32_t network, uint32_t ssi, uint32_t part,
                    uint32_t definition, uint32_t delivery, uint32_t acknowledgement, uint8_t *out, size_t out_len,
                    size_t *bits, size_t *entry, size_t *place);

/*
 * Writes the number part held for a user to the front of `out` as a DEFINE EXTERNAL, and its length in bits to `bits`:
 * the affected user, the services and the lists as they are held, under a definition type, delivery and acknowledgement
 * as boc_reload has them.
 * Refuses, in this order: BOC_RANGE for a network or SSI of 16,777,216 or more, and for a definition type, delivery or
 * acknowledgement as boc_reload does; BOC_ARCHIVE; BOC_NOT_HELD; BOC_LOSS for any list that is not empty under a
 * removal; BOC_ROOM.
 */
BOC_CHECKED
uint32_t boc_reload_external(const uint8_t *archive, size_t archive_len, uint32_t network, uint32_t ssi,
                             uint32_t definition, uint32_t delivery, uint32_t acknowledgement, uint8_t *out,
                             size_t out_len, size_t *bits, size_t *entry, size_t *place);

/*
 * Decides a request by the part that the archive holds for its user, and writes the decision (enum boc_decision) to
 * `decision`. Refuses, in this order: BOC_RANGE if request_words is not 34 or the request is out of its range;
 * BOC_ARCHIVE.
 */
BOC_CHECKED
uint32_t boc_decide(const uint8_t *archive, size_t archive_len, const uint32_t *request, size_t request_words,
                    uint32_t *decision, size_t *entry, size_t *place);

/*
 * The same decision, refusals and places for every archive and request, without a record: the part is walked bit by
 * bit where it stands in the archive. It needs less stack than boc_decide, and less time.
 */
BOC_CHECKED
uint32_t boc_decide_in_place(const uint8_t *archive, size_t archive_len, const uint32_t *request, size_t request_words,
                             uint32_t *decision, size_t *entry, size_t *place);

/*
 * Writes the listing of an archive to the front of `out` as text with no zero byte at its end, and its length in bytes
 * to `length`: `home H entries N`, then for each entry `NETWORK SSI part P bits B day D`, each on a line, in decimal.
 * Refuses, in this order: BOC_ARCHIVE; BOC_ROOM.
 */
BOC_CHECKED
uint32_t boc_contents(const uint8_t *archive, size_t archive_len, uint8_t *out, size_t out_len, size_t *length,
                      size_t *entry, size_t *place);

/*
 * Sets every place of a terminal's table to BOC_PROFILE_BOTH, whatever its bytes were.
 * Refuses BOC_RANGE if table_len is not 269.
 */
BOC_CHECKED
uint32_t boc_terminal_reset(uint8_t *table, size_t table_len);

/*
 * Takes a line that a terminal sent, with its CR and nothing after it. Fields are 1 to 3 decimal digits.
 * `AT+CTSP=PROFILE,LAYER1` and `AT+CTSP=PROFILE,LAYER1,THIRD` set the places of a layer, or the one of a layer 2 or
 * PID, and write 0 to `length`. `AT+CTSP?` writes the places that are not BOC_PROFILE_BOTH to the front of `out`,
 * rising, as `PROFILE,LAYER1` or `PROFILE,LAYER1,THIRD` and CR LF, the first behind `+CTSP: `, with no zero byte at the
 * end, and the text's length in bytes, 0 if there is none, to `length`. A set line for each line of the text, after
 * boc_terminal_reset, puts the table back.
 * Refuses, in this order: BOC_RANGE if table_len is not 269 or a byte of the table is over 3; BOC_SYNTAX for any other
 * bytes, but for a line with a fourth field; BOC_FIELD for a profile over 3, a layer 1 over 4, or a third field that is
 * no value of its layer 1; BOC_SURPLUS for a third field of Packet Data, or any fourth; BOC_ROOM.
 */
BOC_CHECKED
uint32_t boc_terminal_line(const uint8_t *line, size_t line_len, uint8_t *table, size_t table_len, uint8_t *out,
                           size_t out_len, size_t *length);

#ifdef __cplusplus
}
#endif

#endif
