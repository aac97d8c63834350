/* Vienghulac: Autocrypt Level 1 for mail programs. The C interface.
 *
 * What each call does is laid down in docs/SCOPE.md. A mark such as (T8) leads to a rule there.
 *
 * Ownership. All memory belongs to the caller. A call is handed a block as a pointer and a length. It keeps no pointer
 * when it returns, remembers nothing for the next call, and takes no memory of its own. The comment on each function
 * says of each block which of these it is:
 *
 *   borrowed   the call reads it and does not change it. Nobody may change, move or free it before the call returns
 *   lent       the call reads and writes it, and has it to itself until it returns: it overlaps no other block of the
 *              call, and no other thread touches it meanwhile
 *   a part     an answer that is a place in a table, not a copy. Its octets are the caller's own, and mean what they
 *              meant until the next call that writes the table (A11)
 *
 * Where a length is 0 the pointer may be null. Calls that have no lent block in common may run at the same time.
 *
 * Every input has an answer, so nothing has to be checked before a call. A call answers 0, or refuses with a number and
 * leaves all lent memory as it was:
 *
 *      0   done
 *      1   the table does not have 1 to 256 whole slots
 *      2   the table has a damaged slot; one that is neither free (T4) nor sound (T8). The lowest index comes with it
 *      3   the receipt time lies beyond the year 9999; 253,402,300,799 is its last second
 *      4   the header block of the mail cannot be read; page B says what can be
 *      5   no single From field with a single address; also where that field is no readable list (R5)
 *      6   the mail is a report, of type multipart/report; by any of its Content-Type fields (B13)
 *      7   gossip is wanted, but the payload block cannot be read; only with VIENGHULAC_GOSSIP_TAKE, and in
 *          vienghulac_lint (R7)
 *      8   too few free slots for the new addresses
 *      9   the address to write is not a plain one; or the one to show. It has nothing around it (L6, L7)
 *     10   the recipients cannot be read, or are not 1 to 100
 *     11   the key to write is empty or over 2,048 octets
 *     12   too little room for the field, or for 11 numbers; or for the address to show, or for the faults
 *
 * Each call can give the numbers that its comment names. If several hold, the lowest of them is given.
 *
 * A table has 1 to 256 slots of VIENGHULAC_SLOT octets, one for each correspondent; slots count from 0. A new table is
 * all zeros. There are no pointers in it, so it may be stored, copied and moved as it is, and zeros for whole slots may
 * be added at its end (T13). A table that a version before 0.4 stored may be refused with 2 by all but
 * vienghulac_convert, which has to be called once for it (T20).
 *
 * A domain may be spelled in its own script, as UTF-8, or with labels that open with xn--, which are Punycode by
 * RFC 3492: in every argument, and in every field of a mail (L7, L22). Both spellings lead to one entry, for an address
 * is stored, written and compared in its canonical form. That is in small letters, and ASCII behind the @ (L8). It may
 * be longer than the address that was given, or shorter, and has at most 254 octets; the address itself may have more
 * (L6). vienghulac_display makes it readable again. The library has no tables of Unicode: a program that takes an
 * address from people normalises it (NFC) and sees which characters IDNA permits, before it hands it over.
 *
 * What no call can check is the caller's to see to (C18):
 *
 *   the machine  has addresses and sizes of 64 bits
 *   a bool       is 0 or 1. In C and C++ it can be nothing else; another language has to pass an octet that is 0 or 1
 *   the stack    has room: up to 312,000 octets for vienghulac_process and up to 240,000 for vienghulac_lint, for a
 *                short mail as for a long one, and up to 16,384 for every other call. A thread whose stack has
 *                VIENGHULAC_STACK octets may make every call; on a smaller one a call may overflow it
 */
#ifndef VIENGHULAC_H
#define VIENGHULAC_H

#include <stdbool.h>
#include <stddef.h>
#include <stdint.h>

#if SIZE_MAX != UINT64_MAX
#error "vienghulac.h is for machines of 64 bits: size_t has to be as wide as uint64_t"
#endif

#ifdef __cplusplus
extern "C" {
#endif

/* The octets of a slot, and the most slots that a table may have. */
#define VIENGHULAC_SLOT 4392
#define VIENGHULAC_SLOTS 256

/* So many octets of stack are enough for every call, and leave at least 16,384 for the functions around it. Calls take
 * less today: a program that was compiled with this number may run with later versions of the library. */
#define VIENGHULAC_STACK 327680

/* An output of this length has room for every field, so no writer then answers 12 (W6). */
#define VIENGHULAC_FIELD 3200

/* An output of this length has room for every address shown, so vienghulac_display then never answers 12 (W11). */
#define VIENGHULAC_DISPLAY 1024

/* A list with three numbers for each of so many faults has room for those of every mail, so vienghulac_lint then never
 * answers 12 (O11). */
#define VIENGHULAC_FAULTS 32768

/* The gossip setting of vienghulac_process. Gossip is taken with VIENGHULAC_GOSSIP_TAKE alone. Any value besides these
 * three counts as unset, and unset skips (G1). */
#define VIENGHULAC_GOSSIP_UNSET 0
#define VIENGHULAC_GOSSIP_TAKE 1
#define VIENGHULAC_GOSSIP_SKIP 2

/* The advice of vienghulac_recommend and vienghulac_recommend_quick, from low to high (A1); the first comes with a
 * refusal. */
#define VIENGHULAC_REFUSED 0
#define VIENGHULAC_DISABLE 1
#define VIENGHULAC_DISCOURAGE 2
#define VIENGHULAC_AVAILABLE 3
#define VIENGHULAC_ENCRYPT 4

/* What an entry has: last seen, a key from its own mail, a key by gossip, the preference "mutual" (T5). */
#define VIENGHULAC_BIT_LAST_SEEN 1
#define VIENGHULAC_BIT_DIRECT 2
#define VIENGHULAC_BIT_GOSSIP 4
#define VIENGHULAC_BIT_MUTUAL 8

/* How many numbers vienghulac_entry writes. */
#define VIENGHULAC_NUMBERS 11

/* The kinds of faults that vienghulac_lint lists (O3). The first is about the outer block, the next two are about its
 * Autocrypt fields, the last three about gossip fields, and the two between about both. */
#define VIENGHULAC_FAULT_NO_VALID 1          /* no valid Autocrypt field */
#define VIENGHULAC_FAULT_MORE_VALID 2        /* another valid Autocrypt field stands before it */
#define VIENGHULAC_FAULT_WRONG_ADDRESS 3     /* its address is not the sender's */
#define VIENGHULAC_FAULT_UNKNOWN_ATTRIBUTE 4 /* an unknown critical attribute */
#define VIENGHULAC_FAULT_KEY_DATA 5          /* key data not last or not Base64 */
#define VIENGHULAC_FAULT_GOSSIP_OUTSIDE 6    /* gossip outside the payload */
#define VIENGHULAC_FAULT_GOSSIP_UNLISTED 7   /* gossip about somebody who is not a recipient */
#define VIENGHULAC_FAULT_GOSSIP_PREFERENCE 8 /* gossip with a preference */

/* What a call on a table answers: 0 or the number of a refusal, and the index of a slot, which is 0 unless the number
 * is 2. */
typedef struct {
    uint32_t number;
    uint32_t index;
} vienghulac_answer;

/* The same, and the advice, which is VIENGHULAC_REFUSED with a refusal. */
typedef struct {
    uint32_t number;
    uint32_t index;
    uint32_t advice;
} vienghulac_advice;

/* The same, and how many recipients were looked up; 0 with a refusal (A13). */
typedef struct {
    uint32_t number;
    uint32_t index;
    uint32_t advice;
    uint32_t looked_up;
} vienghulac_quick;

/* A part of a table: from table[start] on, so many octets. An empty part has start and length 0. */
typedef struct {
    uint64_t start;
    uint64_t length;
} vienghulac_part;

/* The numbers of an entry under names, in their order (T14). To have them written here, lend `&numbers.used`. A time
 * counts the seconds from the beginning of 1970 in UTC. Since 0 is a time too, the bits alone tell whether one is
 * there. A start and a length are a part of the table, as in vienghulac_part. */
typedef struct {
    uint64_t used;                /* 1, or 0 for a free slot, with all other numbers 0 too */
    uint64_t bits;                /* a sum of VIENGHULAC_BIT_* */
    uint64_t last_seen;           /* with VIENGHULAC_BIT_LAST_SEEN, else 0 */
    uint64_t autocrypt_timestamp; /* with VIENGHULAC_BIT_DIRECT, else 0 */
    uint64_t gossip_timestamp;    /* with VIENGHULAC_BIT_GOSSIP, else 0 */
    uint64_t address_start;
    uint64_t address_length;
    uint64_t direct_start;        /* the key of the correspondent's own mail; 0 and 0 if there is none */
    uint64_t direct_length;
    uint64_t gossip_start;        /* the key that came by gossip; 0 and 0 if there is none */
    uint64_t gossip_length;
} vienghulac_numbers;

/* What a writer and vienghulac_display answer: 0 and how many octets were written, or a refusal's number and the length
 * 0 (R34). */
typedef struct {
    uint64_t number;
    uint64_t length;
} vienghulac_written;

/* The numbers of a fault under names, in their order (O2). To have faults written to an array of these, lend
 * `&faults[0].block`, and three numbers for each. */
typedef struct {
    uint32_t block; /* 0 for the outer block, 1 for the payload */
    uint32_t place; /* the field's among all fields of its block, from 1; 0 with VIENGHULAC_FAULT_NO_VALID */
    uint32_t kind;  /* one of VIENGHULAC_FAULT_* */
} vienghulac_fault;

/* What vienghulac_lint answers: 0 and how many faults there are, or a refusal's number and the count 0. */
typedef struct {
    uint32_t number;
    uint32_t count;
} vienghulac_linted;

/* Are these octets a table that the other calls take? Each call on a table asks this first, so no program has to.
 *
 * Borrowed: `table`.
 * Answers 0, 1 or 2. */
vienghulac_answer vienghulac_check(const uint8_t *table, size_t table_length);

/* Brings a table up to date that a version before 0.4 stored. Those versions told addresses apart by the case of
 * letters with accents, and of Greek and Cyrillic letters; now such capitals become small letters, too (L21).
 *
 * Each used slot gets the canonical form of its address. Where several slots have one form, the lowest of them holds
 * the merged entry from then on: the largest last seen, the direct half with the largest timestamp, and the gossip half
 * with the largest timestamp, of equal ones that of the lowest slot (T18). The others become free. No other slot
 * changes, and none moves (T17). A table that vienghulac_check answers with 0 stays octet by octet as it was (T19), so
 * a program may make this call on every table that it loads.
 *
 * Lent: `table`. If the answer is 0, the table is one that the other calls take, and parts that were handed out before
 * mean nothing any more.
 * Answers 0, or 1, or 2 with the index, by the rule before accents: where an address has to be plain and without an
 * ASCII capital (T16). */
vienghulac_answer vienghulac_convert(uint8_t *table, size_t table_length);

/* Takes one received mail into the table: the entry of its sender and, where gossip is asked for, those of the recipients
 * whom the gossip in its payload is about (pages U and G).
 *
 * `receipt` is when the mail came in, counted in seconds from the beginning of 1970 in UTC. `outer` is the mail's
 * header block, octet by octet as it came in, up to the first empty line. What stands behind that line is not looked
 * at, but counts for the limit of 65,536 octets (B1). `payload` is the header block of the root part inside the
 * decrypted mail; its length is 0 for a mail that was not encrypted. `gossip` is one of VIENGHULAC_GOSSIP_*: to take
 * gossip, pass VIENGHULAC_GOSSIP_TAKE. With every other value the payload is not looked at, and the call is the same as
 * one without it (G2).
 *
 * Lent: `table`. Borrowed: `outer` and `payload`. A mail is taken in full, or the table stays octet by octet as it was.
 * If the answer is 0, parts that were handed out before mean nothing any more.
 * Answers 0 or 1 to 8. */
vienghulac_answer vienghulac_process(uint8_t *table, size_t table_length, uint64_t receipt,
                                     const uint8_t *outer, size_t outer_length,
                                     const uint8_t *payload, size_t payload_length, uint8_t gossip);

/* Should a new mail to these people be encrypted (page A)?
 *
 * `recipients` is a list of 1 to 100 addresses as in a To field, but without line endings (L19). `mutual` is the user's
 * own preference. `reply` says that the mail replies to an encrypted one.
 *
 * Borrowed: `table` and `recipients`.
 * Answers 0 with an advice from VIENGHULAC_DISABLE to VIENGHULAC_ENCRYPT, or 1, 2 or 10. */
vienghulac_advice vienghulac_recommend(const uint8_t *table, size_t table_length,
                                       const uint8_t *recipients, size_t recipients_length, bool mutual, bool reply);

/* The same advice at the same cost, and how many recipients were looked up for it: for a window that asks after every
 * letter, and marks the one for whom nothing can be encrypted. Recipients are looked up in the order of the list, and
 * none behind the first with VIENGHULAC_DISABLE (A12).
 *
 *     vienghulac_quick quick = vienghulac_recommend_quick(table, table_length, to, to_length, mutual, reply);
 *     if (quick.advice == VIENGHULAC_DISABLE) mark(quick.looked_up - 1);
 *
 * It takes what vienghulac_recommend takes. Number, index and advice are always those that vienghulac_recommend gives.
 * `looked_up` is the place of the first recipient with VIENGHULAC_DISABLE, counted from 1; vienghulac_target_key counts
 * from 0, and has that recipient one lower. Where nobody has it, `looked_up` is the length of the list (A13). The list
 * is read to its end all the same: a fault behind that recipient gives 10 (A14).
 *
 * Borrowed: `table` and `recipients`.
 * Answers 0 with an advice and a count from 1 to 100, or 1, 2 or 10. */
vienghulac_quick vienghulac_recommend_quick(const uint8_t *table, size_t table_length,
                                            const uint8_t *recipients, size_t recipients_length,
                                            bool mutual, bool reply);

/* The key to encrypt to for one recipient. It takes what vienghulac_recommend takes, and the recipient's place in the
 * list, counted from 0; the answer does not depend on `mutual` and `reply` (A9).
 *
 * Borrowed: `table` and `recipients`. The answer is a part of `table`. It is empty if the recipient has no key, if the
 * place is past the list, and if vienghulac_recommend would refuse (A7). */
vienghulac_part vienghulac_target_key(const uint8_t *table, size_t table_length,
                                      const uint8_t *recipients, size_t recipients_length, bool mutual, bool reply,
                                      uint64_t place);

/* What does a slot hold?
 *
 *     vienghulac_numbers numbers;
 *     vienghulac_entry(table, table_length, slot, &numbers.used, VIENGHULAC_NUMBERS);
 *
 * Borrowed: `table`. Lent: `numbers`. If the answer is 0, the first VIENGHULAC_NUMBERS of them are written: those of
 * vienghulac_numbers in their order, which are all 0 for a free slot and for a slot past the end. So a program may
 * count up without knowing how many slots there are. The numbers behind them, and with a refusal all numbers, stay as
 * they were. The starts and lengths tell of parts of `table`. The address is in canonical form; what to show to people
 * is for vienghulac_display to say.
 * Answers 0, 1, 2 or 12. */
vienghulac_answer vienghulac_entry(const uint8_t *table, size_t table_length, uint64_t slot,
                                   uint64_t *numbers, size_t numbers_length);

/* Writes the Autocrypt field of an outgoing mail to the front of `out` (W2), such as
 *
 *     Autocrypt: addr=bob@b.example; prefer-encrypt=mutual; keydata=
 *      Zm9v
 *
 * with CRLF behind each line. `address` is the sender's; it is written in its canonical form, in small letters and with
 * a domain of ASCII (L8). `key` holds the octets of the key, which are written as Base64. Without `mutual` there is no
 * prefer-encrypt.
 *
 * Borrowed: `address` and `key`. Lent: `out`. If the number is 0, the first `length` octets of it are the field. The
 * octets behind them, and with a refusal all of `out`, stay as they were; no zero is put behind the field.
 * Answers 0, 9, 11 or 12. */
vienghulac_written vienghulac_write_autocrypt(const uint8_t *address, size_t address_length,
                                              const uint8_t *key, size_t key_length, bool mutual,
                                              uint8_t *out, size_t out_length);

/* Writes an Autocrypt-Gossip field to the front of `out`, for the header block inside an encrypted mail. `address`
 * and `key` are those of one of its recipients. The field has that name and never a preference (W3); all else is as
 * above. */
vienghulac_written vienghulac_write_gossip(const uint8_t *address, size_t address_length,
                                           const uint8_t *key, size_t key_length,
                                           uint8_t *out, size_t out_length);

/* Shows an address in its own script. What is written to the front of `out` is its canonical form, with the labels of
 * the domain decoded, as UTF-8 (W12).
 *
 *     uint8_t shown[VIENGHULAC_DISPLAY];
 *     vienghulac_written w = vienghulac_display(address, address_length, shown, sizeof shown);
 *
 * A label stays in ASCII where it does not open with xn--, where it does not decode, and where the decoded text, given
 * as a label, would not lead back to it. So what is shown may be handed to every call in place of the address (C20).
 * Whether a label is a good one is not judged: it may hold letters that look like others, and characters that steer a
 * terminal, such as U+0080. Octets of the local part that are no UTF-8 stand as they are.
 *
 * Borrowed: `address`. Lent: `out`. If the number is 0, the first `length` octets of it are the address shown. Those
 * behind them, and with a refusal all of `out`, stay as they were; no zero is put behind the address.
 * Answers 0, 9 or 12. */
vienghulac_written vienghulac_display(const uint8_t *address, size_t address_length, uint8_t *out, size_t out_length);

/* Looks over a mail that some program is about to send, and lists what is wrong with its Autocrypt and Autocrypt-Gossip
 * fields (page O). It is for authors of mail programs, who try their mail with it before a release.
 *
 *     static vienghulac_fault faults[VIENGHULAC_FAULTS];
 *     vienghulac_linted done = vienghulac_lint(outer, outer_length, payload, payload_length,
 *                                              &faults[0].block, 3 * VIENGHULAC_FAULTS);
 *     for (uint32_t i = 0; i < done.count; i++) show(faults[i].block, faults[i].place, faults[i].kind);
 *
 * `outer` is the mail's header block, up to the first empty line as for vienghulac_process. `payload` is the one of the
 * root part that is going to be encrypted; its length is 0 for a mail that is not. A fault is three numbers, those of
 * vienghulac_fault. Faults of the outer block come first; in a block they stand by place, and at one place by kind. A
 * field has each kind once (O4). There is no fault where all such fields are as the two writers write them: one
 * Autocrypt field, for the sender, and gossip in the payload alone, about recipients (C23).
 *
 * Borrowed: `outer` and `payload`. Lent: `faults`, which is aligned to 4, as a uint32_t is. `faults_length` counts
 * numbers, neither octets nor faults: there is room for a third as many faults, rounded down. If the number is 0, the
 * first 3 * `count` numbers are written. Those behind them, and with a refusal all of them, stay as they were.
 * Answers 0 with a count of at most VIENGHULAC_FAULTS, or 4, 5, 7 or 12. A report is not refused (O1). */
vienghulac_linted vienghulac_lint(const uint8_t *outer, size_t outer_length,
                                  const uint8_t *payload, size_t payload_length,
                                  uint32_t *faults, size_t faults_length);

#ifdef __cplusplus
}
#endif

#endif
