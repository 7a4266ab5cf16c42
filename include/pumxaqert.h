/* One copy of a replicated edit log. Every call below is proved in Rattle to follow its rules, which docs/RULES.md tells;
 * docs/HOST.md has the host's part, docs/LAYOUT.md every byte of tables and messages.
 *
 * n: 3, 5 or 7 copies; s: 1 to 64 numbers an owner; c: this copy, below n. The table has pumxaqert_table_length(n, s)
 * bytes.
 *
 * A call returns 0, or the number of a refusal; then all lent memory is as at entry, except that the values, which are
 * this call's answer, are all 0, but for the offset of a wrong field or of a bad entry. (pumxaqert_table_length and pumxaqert_part return a
 * length and a place in the table, and refuse nothing.)
 *
 * Lent areas. A pointer comes with its length, in elements, and is aligned as its type asks. No lent area overlaps
 * another, the values included. NULL may be given with length 0 and means an empty area; the values (values, fields,
 * length, codes, written, offset) may not be NULL, and need not be set before; place may not be NULL either. What a call
 * does not say it writes keeps its contents: bytes of out after the written ones, bytes of buf after the taken ones,
 * places of the list after the filled ones, all other bytes of the table.
 *
 * No call keeps a pointer, allocates, or calls the host; calls on different areas may run at the same time. The library
 * is for x86-64, where size_t has 64 bits. */
#ifndef PUMXAQERT_H
#define PUMXAQERT_H

#include <stddef.h>
#include <stdint.h>

#ifdef __cplusplus
extern "C" {
#endif

/* Refusals, in the order in which they are tried: the first that holds counts. */
enum {
    PUMXAQERT_SETUP = 1,             /* n, s, c or the table's length is wrong */
    PUMXAQERT_UNSOUND = 11,          /* the table is not sound, or no calls leave such a place in a stream */
    PUMXAQERT_ROOM = 2,              /* room for outgoing bytes is under 256, a stream's buffer under 64, or an entry's
                                        room shorter than the entry */
    PUMXAQERT_UNKNOWN_KIND = 31,     /* a message of no known kind, or no bytes at all */
    PUMXAQERT_WRONG_LENGTH = 32,     /* a message that is not as long as its kind */
    PUMXAQERT_WRONG_WAY = 33,        /* a message that is not for this copy, or is from it */
    PUMXAQERT_WRONG_LEAD = 34,       /* a message not from, or not to, the lead of its ballot, as its kind asks */
    PUMXAQERT_WRONG_FIELD = 35,      /* a field out of range; the offset says which. In the first ten bytes: before 33 */
    PUMXAQERT_OP = 4,                /* a request with another op than 1, 2 or 3, or with keys its op does not take */
    PUMXAQERT_INSTANCE = 6,          /* there is no such owner or number */
    PUMXAQERT_RECOVER_COMMITTED = 8, /* recover of a committed instance */
    PUMXAQERT_NUDGE_IDLE = 9,        /* nudge, not committed and phase 0 */
    PUMXAQERT_BALLOTS_USED_UP = 7,   /* recover with joined >= 4,294,967,288 */
    PUMXAQERT_NO_BLANK = 5,          /* a request finds no blank own record */
    PUMXAQERT_OTHER_COMMIT = 10,     /* a Commit differs from the stored one */
    PUMXAQERT_ENTRY_KIND = 41,       /* a journal's entry of no known kind */
    PUMXAQERT_ENTRY_INSTANCE = 42,   /* an entry of an owner or number that there is not */
    PUMXAQERT_ENTRY_UNSOUND = 43     /* an entry with an unsound record, or a mark where nothing is committed */
};

/* How many bytes a table of n copies and s numbers has; 0 where no table has these sizes. */
size_t pumxaqert_table_length(size_t n, size_t s);

/* Writes a blank table. Refuses only 1. */
uint32_t pumxaqert_blank(uint8_t *table, size_t table_len, size_t n, size_t s, size_t c);

/* 0 if the table is sound; else 1 or 11. */
uint32_t pumxaqert_judge(const uint8_t *table, size_t table_len, size_t n, size_t s, size_t c);

/* The part of the table that holds the record of owner.number, for saving: its start is returned and its length is put
 * in *length; both are 0 if there is no such record, or with a wrong setup or length. The table need not be sound. */
size_t pumxaqert_part(const uint8_t *table, size_t table_len, size_t n, size_t s, size_t c, size_t owner, size_t number,
                      size_t *length);

/* Events: they change one record of the table. values: its owner, its number, how many bytes were written at the front
 * of out, which are whole messages, by rising destination; and for refusal 35, else 0, where in the message the first
 * byte of the wrong field stands (docs/LAYOUT.md names it). Each refuses 1, 11, 2 and then
 *   request (op and keys below)   4, 5
 *   message (bytes that came in)  31 to 35, 10
 *   recover                       6, 8, 7
 *   nudge                         6, 9
 * A request's op is 1 (a read), 2 (a write) or 3 (a rewire: a write on the objects of two keys). With op 3 key is below
 * second; with the others second is 0. */
uint32_t pumxaqert_request(uint8_t *table, size_t table_len, size_t n, size_t s, size_t c, uint8_t *out, size_t out_len,
                           size_t op, uint32_t key, uint32_t second, uint64_t edit, size_t values[4]);
uint32_t pumxaqert_message(uint8_t *table, size_t table_len, size_t n, size_t s, size_t c, uint8_t *out, size_t out_len,
                           const uint8_t *bytes, size_t bytes_len, size_t values[4]);
uint32_t pumxaqert_recover(uint8_t *table, size_t table_len, size_t n, size_t s, size_t c, uint8_t *out, size_t out_len,
                           size_t owner, size_t number, size_t values[4]);
uint32_t pumxaqert_nudge(uint8_t *table, size_t table_len, size_t n, size_t s, size_t c, uint8_t *out, size_t out_len,
                         size_t owner, size_t number, size_t values[4]);

/* values: 1, op, key, second, edit where it is settled (op 0: the edit lost; second is 0 but for op 3); 0, owner, number,
 * 0, 0 of the uncommitted instance that comes first. Refuses 1, 11, 6. */
uint32_t pumxaqert_settled(const uint8_t *table, size_t table_len, size_t n, size_t s, size_t c, size_t owner,
                           size_t number, uint64_t values[5]);

/* Fills the list from its front with codes, 256 x owner + number, and marks them in the table; *codes is how many.
 * list_len counts codes, not bytes. Refuses 1, 11. */
uint32_t pumxaqert_hand_out(uint8_t *table, size_t table_len, size_t n, size_t s, size_t c, uint16_t *list,
                            size_t list_len, size_t *codes);

/* A message to copy c as numbers: kind, from, to, owner, number, ballot, voted (kinds 7, 12) or joined (kind 8), status,
 * op, key, second, edit, and the seven dependencies. Kinds 9 to 12 are kinds 1, 3, 5 and 7 with op 3, which no other kind
 * carries. What a kind does not carry is 0. Refuses 1, 31 to 35; *offset is where the wrong field of a 35 begins, else
 * 0. */
uint32_t pumxaqert_read_message(size_t n, size_t s, size_t c, const uint8_t *bytes, size_t bytes_len,
                                uint64_t fields[19], size_t *offset);

/* Writes what fields says at the front of out; *written is the message's length. Refuses 1, 2 (out_len under 256), and
 * then as the copy named in `to` would refuse the message, *offset as above. A number where the kind has none, such as a
 * second key in kinds 1 to 8, makes the message too long (32); then the first number that its place cannot hold is a wrong
 * field before all others (a byte above 255 .., an op above 2, or in kinds 9 to 12 another than 3). c is the copy that
 * writes; it need not be the message's `from`. */
uint32_t pumxaqert_write_message(size_t n, size_t s, size_t c, uint8_t *out, size_t out_len, const uint64_t fields[19],
                                 size_t *written, size_t *offset);

/* Messages off a stream. A link hands bytes over cut anywhere; the reader gives whole messages back, and what is left
 * of one waits for the next bytes. The kind, a message's first byte, alone says how long it is; nothing else is judged
 * here. A byte of no known kind where a message should begin stops the stream for good: nothing more is taken, and each
 * call says the same stop.
 *
 * buf is the reader's buffer, at least 64 bytes; between the calls its contents are the library's. place says where the
 * reader stands: it is the caller's to keep, beside buf, and the library's to change. The bytes held are those of buf
 * from place[0] up to, not including, place[1], and the first of them is byte place[2] of the stream, counted from its
 * start. A refusal leaves it as it was.
 *
 * take and next refuse 11, if no calls on a buffer of this length leave such a place behind, and then 2. */

/* Begins a stream: place becomes 0, 0, 0, and need not be set before. Refuses 2. */
uint32_t pumxaqert_stream_begin(const uint8_t *buf, size_t buf_len, size_t place[3]);

/* Takes the next bytes of the stream, from the first on, as many as there is room for: what is held moves to the front
 * of buf, and they follow it. Where next has said that there is nothing, at least one byte is taken if one is offered.
 * values: how many bytes were taken; 1 if the stream has stopped, else 0; the offset of the stop, else 0. */
uint32_t pumxaqert_stream_take(uint8_t *buf, size_t buf_len, size_t place[3], const uint8_t *bytes, size_t bytes_len,
                               size_t values[3]);

/* The next whole message, which stays in buf until the next take. values: 0, 0, 0 if none is held; 1, where in buf the
 * message starts, its length; 2, the offset of the stop, 0. */
uint32_t pumxaqert_stream_next(const uint8_t *buf, size_t buf_len, size_t place[3], size_t values[3]);

/* The journal: entries one after another, in the order in which they were saved. docs/LAYOUT.md has their bytes,
 * docs/HOST.md when to write, when to wait for the disk and what to do after a cut. Kind 20 is an instance and its
 * record, for each event; kind 21 an instance that was newly marked as handed out, for each code of a hand-out. */

/* How many bytes an entry of a kind has; 0 if there is no such kind. */
size_t pumxaqert_entry_length(size_t kind);

/* Writes the entry of owner.number as it stands in the table at the front of out; *written is its length. Each refuses
 * 1, 2 (out_len under the entry's length), 6 and then 43: record_entry if that record is not sound, mark_entry if it is
 * not committed and marked. The rest of the table is not judged. */
uint32_t pumxaqert_record_entry(const uint8_t *table, size_t table_len, size_t n, size_t s, size_t c, uint8_t *out,
                                size_t out_len, size_t owner, size_t number, size_t *written);
uint32_t pumxaqert_mark_entry(const uint8_t *table, size_t table_len, size_t n, size_t s, size_t c, uint8_t *out,
                              size_t out_len, size_t owner, size_t number, size_t *written);

/* Replays a journal onto the table that it was begun with. Refuses 1, 11, and then, for the first entry that is bad, 41,
 * 42 or 43, with *offset where that entry begins; the table is as it was. Else the table becomes what it was after the
 * last whole entry, and *offset is where a shorter rest begins, the journal's length if there is none: cut the journal
 * off there before anything more is written to it. */
uint32_t pumxaqert_replay(uint8_t *table, size_t table_len, size_t n, size_t s, size_t c, const uint8_t *journal,
                          size_t journal_len, size_t *offset);

#ifdef __cplusplus
}
#endif

#endif
