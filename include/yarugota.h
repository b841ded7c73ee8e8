/* Yarugota: the C interface.
 *
 * A data base is a buffer of 512-byte blocks, its schema one block more. The caller owns both, and hands them over with
 * their lengths. Buffers may have any length and hold anything: what is bad is refused by the answer. A pointer must
 * not be null, also where its length is 0. No function keeps a pointer, takes memory or has state of its own: several
 * threads may call at once, each on a data base and an area of its own.
 *
 * To begin: make a schema and set its check by yarugota_block_seal (number 0), learn by yarugota_schema_blocks how many
 * blocks the data base has, and call FORMT for a new data base or SINON for one that was kept; then the other calls.
 *
 * `tools/archives` builds two archives, which may be linked together: libstore.a has yarugota_call, libprobes.a has the
 * other four functions. The two that are inline here, yarugota_code and yarugota_call_key_in_area, are not proved.
 */
#ifndef YARUGOTA_H
#define YARUGOTA_H

#include <stddef.h>
#include <stdint.h>

#ifdef __cplusplus
extern "C" {
#endif

/* Bytes of a block. */
#define YARUGOTA_BLOCK 512

/* The status of a call. Of several faults the one tested first is told, which is not always the lowest number. */
enum yarugota_status {
    YARUGOTA_DONE = 0,  /* **** */
    YARUGOTA_SCHM = 1,  /* schema breaks a rule */
    YARUGOTA_SIZE = 2,  /* data base length wrong */
    YARUGOTA_FUNC = 3,  /* unknown operation */
    YARUGOTA_FNTF = 4,  /* no set of that name */
    YARUGOTA_KIND = 5,  /* master call on a variable set, or the reverse */
    YARUGOTA_PATH = 6,  /* no such path in the set */
    YARUGOTA_AREA = 7,  /* area length wrong */
    YARUGOTA_KLEN = 8,  /* key length wrong */
    YARUGOTA_BCTL = 9,  /* key all 0x20 */
    YARUGOTA_KEYS = 10, /* area key differs */
    YARUGOTA_IVRP = 11, /* bad reference */
    YARUGOTA_MRNF = 12, /* no such master */
    YARUGOTA_DUPM = 13, /* master exists */
    YARUGOTA_IMDL = 14, /* master has a first or last not 0: it still has variable records */
    YARUGOTA_FULL = 15, /* no free record in the set */
    YARUGOTA_DAMG = 16  /* damage met */
};

/* The four characters of a status. */
static inline const char *yarugota_code(enum yarugota_status status)
{
    static const char *const codes[] = {"****", "SCHM", "SIZE", "FUNC", "FNTF", "KIND", "PATH", "AREA", "KLEN",
                                        "BCTL", "KEYS", "IVRP", "MRNF", "DUPM", "IMDL", "FULL", "DAMG"};
    return (uint32_t)status <= YARUGOTA_DAMG ? codes[status] : "????";
}

/* The reference END.: a read found no such record, and left the area as it was. No record number reaches it. */
#define YARUGOTA_END UINT32_C(0x454E442E)

/* The reference LKxx of a path, from its two letters: where READV and READR begin, and what DELVD gives back for a
 * first record. No record number reaches it. */
#define YARUGOTA_LK(x, y) (UINT32_C(0x4C4B0000) | (uint32_t)(uint8_t)(x) << 8 | (uint32_t)(uint8_t)(y))

/* One call of the store.
 *   op         the operation, 5 bytes, one of those below
 *   set        the set's name, 4 bytes
 *   reference  a record number, LKxx or END.; each set counts its records from 1
 *   path       the path's name mmmmLKxx, 8 bytes: mmmm the master set, xx the path's letters
 *   key        the control key: that of the master which the call is about
 *   area       the record: a master's key and its D bytes of data, or a variable record's keys in path order and its D
 *              bytes of data
 *   schema     the schema's block, YARUGOTA_BLOCK bytes
 *   base       the data base, YARUGOTA_BLOCK bytes for each block
 *
 * On masters, with set and key; all but DEL-M and RQLOC with area:
 *   ADD-M  adds a master                      DEL-M  deletes one that has no variable records
 *   READM  reads one                          WRITM  replaces its data
 *   RQLOC  gives the key's home
 * On variable records, with set, path and key; all but DELVD with area, and all with reference:
 *   READV  reads the first (LKxx), or the one after the reference, on the path
 *   READR  reads the last (LKxx), or the one before the reference, on the path
 *   READD  reads the record of that number
 *   WRITV  replaces the data of the record of that number
 *   ADDVC  adds a record, last on all its paths; the reference only must not be END.
 *   ADDVB  adds a record before the reference on the path, last on the others
 *   ADDVA  adds a record after the reference on the path, last on the others
 *   DELVD  deletes the record of that number from all its paths
 * On either kind, with set, reference and area:
 *   RDNXT  reads the next live record above the reference, 0 to begin
 * On the whole data base:
 *   FORMT  zeroes it and sets its checks      SINON  answers DAMG where it is not sound
 * A parameter that the operation does not use may hold anything, but op, set and path always point to so many bytes.
 *
 * The answer is the status in the upper 32 bits and a reference in the lower:
 *   of a read, of WRITV and of an add of a variable record, the record's number; END. where a read found no such record
 *   of RQLOC, the home; of DELVD, the record before on the path, or LKxx where there was none
 *   of the others, and of every call that is refused (status not 0), the reference as it was given
 * A refused call leaves area and data base as they were. A read that gives a record replaces the whole area; no other
 * call changes it. The buffers must not overlap. The key must not point into the area either: for one that does there
 * is yarugota_call_key_in_area. */
uint64_t yarugota_call(const uint8_t *op /* 5 bytes */, const uint8_t *set /* 4 bytes */, uint32_t reference,
                       const uint8_t *path /* 8 bytes */, const uint8_t *key, size_t key_len, uint8_t *area,
                       size_t area_len, const uint8_t *schema, size_t schema_len, uint8_t *base, size_t base_len);

/* The same call for a key that lies inside the area, or anywhere else: 004 (6.5.3) tells its users to keep control key
 * and area key in one place. It answers and stores as yarugota_call does for the same key in a buffer of its own, since
 * it makes such a buffer. No set has keys of more than 16 bytes. So of a longer key the call sees only that it is too
 * long, whatever its bytes are, and 17 of them are enough for that. */
static inline uint64_t yarugota_call_key_in_area(const uint8_t *op, const uint8_t *set, uint32_t reference,
                                                 const uint8_t *path, const uint8_t *key, size_t key_len, uint8_t *area,
                                                 size_t area_len, const uint8_t *schema, size_t schema_len,
                                                 uint8_t *base, size_t base_len)
{
    uint8_t copy[17] = {0};
    size_t copied = key_len < sizeof copy ? key_len : sizeof copy;
    for (size_t at = 0; at < copied; at++)
        copy[at] = key[at];
    return yarugota_call(op, set, reference, path, copy, copied, area, area_len, schema, schema_len, base, base_len);
}

/* The two parts of that answer. */
#define YARUGOTA_STATUS(answer) ((enum yarugota_status)((answer) >> 32))
#define YARUGOTA_REFERENCE(answer) ((uint32_t)(answer))

/* T, the blocks that all sets of the schema take together (1..4096); 0 where the schema breaks a rule (SCHM). */
uint32_t yarugota_schema_blocks(const uint8_t *schema, size_t schema_len);

/* No place in a data base: 2^64 - 1. */
#define YARUGOTA_NOWHERE UINT64_MAX

/* The byte of the data base at which a record begins: entries of the schema are counted from 0, masters first, records
 * from 1. YARUGOTA_NOWHERE where the schema breaks a rule, has no such entry, or the entry no such record. */
uint64_t yarugota_record_place(const uint8_t *schema, size_t schema_len, uint32_t entry, uint32_t record);

/* 1 where the buffer is one block of 512 bytes whose check is true for this block number; else 0. The schema's block
 * has number 0; the blocks of a data base are counted from 0. */
uint32_t yarugota_block_sealed(const uint8_t *block, size_t block_len, uint32_t number);

/* Sets the check of one block for this block number and answers 1; a buffer of another length is left alone and answers
 * 0. The store sets the checks of a data base itself: this is for a schema, and for blocks that a program makes. */
uint32_t yarugota_block_seal(uint8_t *block, size_t block_len, uint32_t number);

#ifdef __cplusplus
}
#endif

#endif
