/* Tulgranie: the portable hash rapidhash V3, its stream, and museums' label records with their fingerprint.
 *
 * Every call takes any bytes, any numbers and any state, and ends. It keeps no pointer, allocates nothing, prints nothing
 * and has no state of its own, so that threads need no lock. Bytes are only read. A stream is the caller's and is changed in
 * place. Other structs are passed and returned whole.
 *
 * What is asked of the caller, since C does not see to it:
 *  - a pointer and a length stand for that many bytes of memory that may be read, at most PTRDIFF_MAX of them; with length 0
 *    the pointer may be NULL;
 *  - a pointer to a stream is one to a whole tulgranie_stream at its alignment, which may be read, and for write and reset
 *    written; never NULL;
 *  - the bytes that are handed over do not overlap the stream, and nobody else changes either while the call runs;
 *  - every bool, those inside a stream included, is stored as 0 or 1.
 * Where one of these is not so, nothing here is promised.
 *
 * Answers carry a number: 0 done, else why not.
 *    1  the stream's state is not sound: nothing was written, or there is no hash
 *    2  the stream would pass 2^64 - 1 bytes: nothing was written
 *    3  a word past the end of the bytes, or a secret with an index over 6
 *    5  a record of more than 8,192 bytes
 *    6  a field is cut: fewer than 3 header bytes, or a value that ends past the record
 *    7  there is no field with this tag: 0 or 5 to 127
 *    8  the tag is not above the one before
 *    9  the length is outside the limits of the tag
 *   10  the accession number (tag 1) or the title (tag 2) is missing
 *   11  the record has none of the listed tags
 */
#ifndef TULGRANIE_H
#define TULGRANIE_H

#include <stdbool.h>
#include <stddef.h>
#include <stdint.h>

#ifdef __cplusplus
extern "C" {
#endif

/* The seed and the seven secrets of a hash. Any numbers will do; two hashes can be compared if these are the same. */
typedef struct tulgranie_secrets {
    uint64_t seed;
    uint64_t secrets[7];
} tulgranie_secrets;

/* A number of the list above, and a value: 0 where the number is not 0. */
typedef struct tulgranie_value {
    uint64_t number;
    uint64_t value;
} tulgranie_value;

/* What an opening of a stream fixes. */
typedef struct tulgranie_settings {
    tulgranie_secrets secrets;
    bool avalanche;
    bool is_protected;
} tulgranie_settings;

/* The state of a stream between two calls. It is a plain value: copy it to go on from the same place twice. Only calls of
 * this library should change it. A state that is not sound (docs/RULES.md, section 5.2) is refused with number 1. That is no
 * guard against every change: a sound state that somebody made by hand is gone on from as it stands. In particular A STRUCT
 * OF ZEROS IS SOUND, the opening with seed 0, all secrets 0 and both flags off: a forgotten tulgranie_stream_open goes
 * unnoticed and gives other hashes. */
typedef struct tulgranie_stream {
    tulgranie_settings settings;
    uint64_t lanes[7];
    uint64_t count;
    size_t waiting;
    uint8_t buffer[128];
} tulgranie_stream;

/* What a write says: a number, and with number 2 how many bytes there is room for. */
typedef struct tulgranie_stream_wrote {
    uint64_t number;
    uint64_t room;
} tulgranie_stream_wrote;

/* What finish finds: a number, the hash, and how many chunks of 112 bytes were mixed. */
typedef struct tulgranie_stream_end {
    uint64_t number;
    uint64_t hash;
    uint64_t count;
} tulgranie_stream_end;

/* An answer about a label record. What a call does not give is 0; where the number is not 0, all but the place are. */
typedef struct tulgranie_answer {
    uint64_t number;
    uint64_t place;       /* a refusal's place, or a field's first byte */
    uint64_t tag;         /* the field's tag */
    uint64_t start;       /* where the field's value starts */
    uint64_t length;      /* how many bytes the value has */
    uint64_t fingerprint;
} tulgranie_answer;

/* The 8 or the 4 bytes at an offset as a number, least significant byte first; number 3 if they are not all there. Any
 * offset may be passed. */
tulgranie_value tulgranie_word8(const uint8_t *bytes, size_t length, size_t offset);
tulgranie_value tulgranie_word4(const uint8_t *bytes, size_t length, size_t offset);

/* A seed and seven secrets made from one number, the same on every machine. */
tulgranie_secrets tulgranie_seed(uint64_t seed);

/* The seed that the C++ original makes of a number, with the default secrets. */
tulgranie_secrets tulgranie_seed_cpp(uint64_t seed);

/* Another seed with the same secrets. */
tulgranie_secrets tulgranie_reseed(tulgranie_secrets secrets);

/* The default seed and secrets: those of tulgranie_seed_cpp(0). */
tulgranie_secrets tulgranie_default_secrets(void);

/* One of the seven secrets; number 3 if the index is over 6. */
tulgranie_value tulgranie_secret(tulgranie_secrets secrets, size_t index);

/* The hash of a message, at the full size and at the smaller micro and nano sizes. `avalanche` mixes once more at the end;
 * `is_protected` keeps a factor of 0 from hiding the other one. `compact` chooses a smaller loop and changes no answer. */
uint64_t tulgranie_full(
    const uint8_t *data, size_t length, tulgranie_secrets secrets, bool avalanche, bool compact, bool is_protected);
uint64_t tulgranie_micro(const uint8_t *data, size_t length, tulgranie_secrets secrets, bool avalanche, bool is_protected);
uint64_t tulgranie_nano(const uint8_t *data, size_t length, tulgranie_secrets secrets, bool avalanche, bool is_protected);

/* A stream of no bytes. Its end is the full hash of all the bytes written, however they are cut. */
tulgranie_stream tulgranie_stream_open(tulgranie_secrets secrets, bool avalanche, bool is_protected);

/* More bytes to the stream: all of them are taken, or none. Where it refuses, the stream stays as it is. */
tulgranie_stream_wrote tulgranie_stream_write(tulgranie_stream *stream, const uint8_t *data, size_t length);

/* The hash of the bytes so far. The stream is only looked at, so more can be written after it. */
tulgranie_stream_end tulgranie_stream_finish(const tulgranie_stream *stream);

/* Makes it a stream of no bytes with the same seed, secrets and flags, whatever its state is. */
void tulgranie_stream_reset(tulgranie_stream *stream);

/* Whether a label record is good: number 0, or 5 to 10 with the place. */
tulgranie_answer tulgranie_read(const uint8_t *record, size_t length);

/* The field of the first tag of a list that the record has: its tag and place, and where its value stands in the record;
 * or 5 to 11. The list's order decides; it may hold any bytes. */
tulgranie_answer tulgranie_find(const uint8_t *record, size_t length, const uint8_t *tags, size_t count);

/* The fingerprint of a good record: the full hash, with avalanche and not protected, of the values of tags 1 to 4 that it
 * has, joined in order; or 5 to 10 and fingerprint 0. */
tulgranie_answer tulgranie_fingerprint(const uint8_t *record, size_t length, tulgranie_secrets secrets);

#ifdef __cplusplus
}
#endif

#endif
