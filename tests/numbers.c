/*
 * Every number of include/boc.h, as the documents and EN 300 392-12-18 have it. `tests/header` compiles this, and sees
 * that no number of the header is missing; rust/boc/tests/numbers.rs holds the numbers of rust/boc to the same lines.
 * SPECIFIED numbers have a name in the definitions that the library is proved against, and are held to those too, by
 * definitions.h, which `tests/definitions` makes of the files in crates/. WRITTEN numbers have none there.
 */
#include "boc.h"
#include "definitions.h"

#define WRITTEN(name, number) _Static_assert((name) == (number), #name " is not " #number)
#define SPECIFIED(name, number, definition)                                                                          \
    WRITTEN(name, number);                                                                                           \
    _Static_assert((name) == (definition), #name " is not " #definition)

/* Refusals: document 01, "Refusal numbers"; 12: document 02, 2026-01; 15 to 17: 2026-10. */
WRITTEN(BOC_OK, 0);
WRITTEN(BOC_FRAME, 1);
WRITTEN(BOC_SHORT, 2);
WRITTEN(BOC_VALUE, 3);
WRITTEN(BOC_ENDS, 4);
WRITTEN(BOC_LEFT, 5);
WRITTEN(BOC_UNFIT, 6);
WRITTEN(BOC_ARCHIVE, 7);
WRITTEN(BOC_ROOM, 8);
WRITTEN(BOC_RANGE, 9);
WRITTEN(BOC_NOT_HELD, 11);
WRITTEN(BOC_LOSS, 12);
WRITTEN(BOC_SYNTAX, 15);
WRITTEN(BOC_FIELD, 16);
WRITTEN(BOC_SURPLUS, 17);

/* No entry, or no place. */
SPECIFIED(BOC_NOWHERE, 18446744073709551615u, nowhere);

/* Limits: document 01, "The archive"; BOC_PDU_BYTES holds the 2,456 bits of the longest PDU; BOC_DAY_LIMIT: 2026-05. */
SPECIFIED(BOC_PDU_BYTES, 307, (pdu_size + 7) / 8);
SPECIFIED(BOC_ARCHIVE_BYTES, 65536, within_limits_size);
SPECIFIED(BOC_ARCHIVE_ENTRIES, 512, within_limits_count);
SPECIFIED(BOC_CONTENTS_BYTES, 23066, listing_size);
SPECIFIED(BOC_NETWORK_LIMIT, 16777216, empty_is_home);
SPECIFIED(BOC_DAY_LIMIT, 65536, is_day_day);
SPECIFIED(BOC_LIST_PLACES, 8, list_places);
SPECIFIED(BOC_DIGIT_PLACES, 24, digit_places);
SPECIFIED(BOC_SERVICE_PLACES, 7, service_places);

/* The words of a record. */
WRITTEN(BOC_PDU_TYPE, 0);
SPECIFIED(BOC_AFFECTED, 1, affected_at);
SPECIFIED(BOC_INTERROGATION_TYPE, 26, asked_at);
SPECIFIED(BOC_RESULT, 27, result_at);
SPECIFIED(BOC_DELIVERY_STATUS, 28, status_at);
SPECIFIED(BOC_SERVICE_COUNT, 29, services_at);
SPECIFIED(BOC_SERVICES, 30, services_at + 1);
SPECIFIED(BOC_GROUPS, 37, lists_at);
SPECIFIED(BOC_RESTRICTED, 62, lists_at + restricted_at);
SPECIFIED(BOC_EXCEPTIONS, 87, lists_at + exceptions_at);
SPECIFIED(BOC_RESTRICTED_NUMBERS, 112, lists_at + numbers_at);
SPECIFIED(BOC_EXCEPTED_NUMBERS, 313, lists_at + excepted_at);
SPECIFIED(BOC_DELIVERY, 514, delivery_at);
SPECIFIED(BOC_ACKNOWLEDGEMENT, 515, acknowledgement_at);
SPECIFIED(BOC_DEFINITION_TYPE, 516, definition_at);
SPECIFIED(BOC_DEFINITION_RESULT, 517, defined_at);
SPECIFIED(BOC_DISTRIBUTION_RESULT, 518, distributed_at);
SPECIFIED(BOC_REJECTION_CAUSE, 519, cause_at);
SPECIFIED(BOC_RECORD_WORDS, 520, record_width);

/* The words of an entry of a list. */
WRITTEN(BOC_ENTRY_SSI, 0);
WRITTEN(BOC_ENTRY_EXTENSION_PRESENT, 1);
WRITTEN(BOC_ENTRY_EXTENSION, 2);
SPECIFIED(BOC_IDENTITY_WORDS, 3, identity_width);
WRITTEN(BOC_ENTRY_LENGTH, 0);
WRITTEN(BOC_ENTRY_DIGITS, 1);
SPECIFIED(BOC_NUMBER_WORDS, 25, number_width);

/* PDU types: table 23. */
SPECIFIED(BOC_DEFINE, 5, Define);
SPECIFIED(BOC_DEFINE_ACK, 6, DefineAck);
SPECIFIED(BOC_DEFINE_EXTERNAL, 7, DefineExternal);
SPECIFIED(BOC_DEFINE_USER, 8, DefineUser);
SPECIFIED(BOC_DEFINE_USER_ACK, 9, DefineUserAck);
SPECIFIED(BOC_DEFINE_EXTERNAL_USER, 10, DefineExternalUser);
SPECIFIED(BOC_INTERROGATE, 11, Interrogate);
SPECIFIED(BOC_INTERROGATE_ACK, 12, InterrogateAck);
SPECIFIED(BOC_CALL_BARRED, 13, CallBarred);

/* Definition types: table 28. */
WRITTEN(BOC_ADDITION, 0);
WRITTEN(BOC_REPLACEMENT, 1);
WRITTEN(BOC_REMOVAL, 2);

/* Definition results: table 27. */
WRITTEN(BOC_DEFINITION_FAILED, 0);
WRITTEN(BOC_DEFINITION_ACCEPTED, 1);
WRITTEN(BOC_DEFINITION_CHANGED, 2);
WRITTEN(BOC_DEFINITION_NOT_AUTHORIZED, 3);
WRITTEN(BOC_DEFINITION_UNKNOWN_IDENTITY, 4);
WRITTEN(BOC_DEFINITION_NOT_VALID, 6);
WRITTEN(BOC_DEFINITION_INSUFFICIENT, 7);

/* Distribution results: table 31. */
WRITTEN(BOC_DISTRIBUTION_FAILED, 0);
WRITTEN(BOC_DISTRIBUTION_RECEIVED, 1);
WRITTEN(BOC_DISTRIBUTION_NOT_VALID, 6);
WRITTEN(BOC_DISTRIBUTION_INSUFFICIENT, 7);

/* Rejection causes: table 38. */
SPECIFIED(BOC_CAUSE_GROUP, 0, cause_OutsideGroup);
SPECIFIED(BOC_CAUSE_SERVICE, 1, cause_RestrictedService);
SPECIFIED(BOC_CAUSE_DESTINATION, 2, cause_RestrictedAddress);

/* Interrogation results: table 35. */
WRITTEN(BOC_RESULT_FAILED, 0);
WRITTEN(BOC_RESULT_IDENTITIES, 1);
WRITTEN(BOC_RESULT_NUMBERS, 2);
WRITTEN(BOC_RESULT_NOT_AUTHORIZED, 3);
WRITTEN(BOC_RESULT_UNKNOWN_USER, 4);
WRITTEN(BOC_RESULT_NOT_VALID, 6);
WRITTEN(BOC_RESULT_INSUFFICIENT, 7);

/* Services: table 42. */
SPECIFIED(BOC_SERVICE_ALL, 0, All);
SPECIFIED(BOC_SERVICE_SPEECH, 1, Speech);
SPECIFIED(BOC_SERVICE_DATA, 2, CircuitData);
SPECIFIED(BOC_SERVICE_SHORT_DATA, 3, ShortData);

/* Digits above 9, and the range type of a range: the site sheet. */
SPECIFIED(BOC_DIGIT_STAR, 10, Star);
SPECIFIED(BOC_DIGIT_HASH, 11, Hash);
SPECIFIED(BOC_DIGIT_PLUS, 12, Plus);
SPECIFIED(BOC_FIRST_AND_LAST, 9, FirstAndLast);

/* The words of a request. */
WRITTEN(BOC_USER_NETWORK, 0);
WRITTEN(BOC_USER_SSI, 1);
SPECIFIED(BOC_REQUEST_SERVICE, 2, service_at);
SPECIFIED(BOC_DESTINATION, 3, kind_at);
SPECIFIED(BOC_NETWORK, 4, identity_at);
SPECIFIED(BOC_SSI, 5, identity_at + 1);
SPECIFIED(BOC_LENGTH, 6, length_at);
SPECIFIED(BOC_DIGITS, 7, digits_at);
SPECIFIED(BOC_GROUP_GIVEN, 31, given_at);
SPECIFIED(BOC_GROUP_NETWORK, 32, group_at);
SPECIFIED(BOC_GROUP_SSI, 33, group_at + 1);
SPECIFIED(BOC_REQUEST_WORDS, 34, request_width);

/* The kinds of a destination, and the parts that judge them: document 01, "The archive" and "The barring rule". */
WRITTEN(BOC_TO_IDENTITY, 1);
WRITTEN(BOC_TO_NUMBER, 2);
WRITTEN(BOC_IDENTITY_PART, 1);
WRITTEN(BOC_NUMBER_PART, 2);

/* The words of a key. */
WRITTEN(BOC_KEY_NETWORK, 0);
WRITTEN(BOC_KEY_SSI, 1);
WRITTEN(BOC_KEY_PART, 2);
WRITTEN(BOC_KEY_WORDS, 3);

/* Decisions: the causes of table 38, then allowed and not held. */
SPECIFIED(BOC_BARRED_GROUP, 0, cause_OutsideGroup);
SPECIFIED(BOC_BARRED_SERVICE, 1, cause_RestrictedService);
SPECIFIED(BOC_BARRED_DESTINATION, 2, cause_RestrictedAddress);
SPECIFIED(BOC_ALLOWED, 3, decided_Allowed);
SPECIFIED(BOC_PART_NOT_HELD, 4, decided_NotHeld);

/* A terminal's table, its longest text, and where the places of each layer 1 begin: document 02, 2026-10. */
WRITTEN(BOC_TABLE_BYTES, 269);
WRITTEN(BOC_TABLE_TEXT_BYTES, 2300);
WRITTEN(BOC_TABLE_CC, 0);
WRITTEN(BOC_TABLE_MM, 2);
WRITTEN(BOC_TABLE_SDS, 7);
WRITTEN(BOC_TABLE_SDS_TL, 12);
WRITTEN(BOC_TABLE_PACKET_DATA, 268);

/* Profiles: EN 300 392-5, clause 6.17.28. */
WRITTEN(BOC_PROFILE_MT, 0);
WRITTEN(BOC_PROFILE_TE, 1);
WRITTEN(BOC_PROFILE_BOTH, 2);
WRITTEN(BOC_PROFILE_NEITHER, 3);
