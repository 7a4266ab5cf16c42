/* Copy 0 of three takes "write, key 7, edit 100" and hears one answer (W1 and W2 of the paper), which a link hands over
 * in two pieces. What it saves goes into a journal; it is cut off in the middle of an entry, and goes on.
 *
 *     gcc -std=c11 -I include embed/example.c crates/pumxaqert/out/libpumxaqert.a -o example && ./example */
#define _POSIX_C_SOURCE 200809L
#include "pumxaqert.h"
#include <stdio.h>
#include <stdlib.h>
#include <unistd.h>

enum { N = 3, S = 4, C = 0, ROOM = 256, RECORD = 20, LIST = 2, WRITE = 2, REWIRE = 3 };

static uint8_t *table, *entry;
static size_t table_len, entry_len;
static uint8_t out[ROOM];
static FILE *journal;

/* Nothing here is refused, and the disk does what it is asked to. */
static void must(uint32_t refusal) {
    if (refusal)
        exit((int)refusal);
}

/* So many messages of one length, a line for each. */
static void show(const char *what, const uint8_t *bytes, size_t length, size_t messages) {
    printf("%s, %zu bytes:", what, length);
    for (size_t i = 0; i < length; i++)
        printf("%s%02x", i % (length / messages) ? " " : "\n  ", bytes[i]);
    printf("\n");
}

/* Appends these bytes, and waits until the disk has them. */
static void append(const uint8_t *bytes, size_t length) {
    must(fwrite(bytes, 1, length, journal) != length || fflush(journal) || fsync(fileno(journal)));
}

/* The record that an event changed, before anything is sent. */
static void save(const size_t values[4]) {
    size_t length;
    must(pumxaqert_record_entry(table, table_len, N, S, C, entry, entry_len, values[0], values[1], &length));
    append(entry, length);
    printf("save %zu.%zu: an entry of %zu bytes\n", values[0], values[1], length);
}

/* The machine starts, perhaps after a cut: the table that the journal was begun with, here a blank one, becomes what it
 * was after the last whole entry. What is left of another is cut off before anything more is written. */
static void start(void) {
    size_t offset;
    must(fseek(journal, 0, SEEK_END) != 0);
    size_t length = (size_t)ftell(journal);
    uint8_t *bytes = malloc(length + 1);
    rewind(journal);
    must(!bytes || fread(bytes, 1, length, journal) != length);
    must(pumxaqert_blank(table, table_len, N, S, C));
    must(pumxaqert_replay(table, table_len, N, S, C, bytes, length, &offset));
    must(ftruncate(fileno(journal), (off_t)offset) || fsync(fileno(journal)) || fseek(journal, 0, SEEK_END));
    printf("start: %zu bytes of the journal are entries, %zu a rest\n", offset, length - offset);
    free(bytes);
}

/* An edit becomes this copy's next instance; a PreAccept goes to copies 1 and 2. Only a rewire has a second object. */
static void take(size_t op, uint32_t key, uint32_t second, uint64_t edit) {
    size_t values[4];
    must(pumxaqert_request(table, table_len, N, S, C, out, ROOM, op, key, second, edit, values));
    save(values);
    show("send", out, values[2], N - 1);
}

/* Copy 1's link. What the bytes that came in leave of a message waits in the buffer for those that follow. */
static uint8_t link_buf[64];
static size_t link_place[3];

/* There is room for these few bytes; a host reads what is whole and offers again what was not taken. values says what
 * has come, as pumxaqert_stream_next does. */
static void arrive(const uint8_t *bytes, size_t length, size_t values[3]) {
    static const char *const words[] = {"no message is whole", "a message is whole", "the stream stops"};
    must(pumxaqert_stream_take(link_buf, sizeof link_buf, link_place, bytes, length, values));
    must(pumxaqert_stream_next(link_buf, sizeof link_buf, link_place, values));
    printf("bytes came in, %zu: %s\n", length, words[values[0]]);
}

/* Copy 1 answers PreAcceptOK (kind 2) without dependencies, and 0.1 is committed. */
static void answered(void) {
    const uint64_t fields[19] = {2, 1, 0, 0, 1};
    uint8_t answer[ROOM];
    size_t length, offset, came[3], values[4];
    must(pumxaqert_write_message(N, S, 1, answer, ROOM, fields, &length, &offset));
    show("copy 1 answers", answer, length, 1);
    must(pumxaqert_stream_begin(link_buf, sizeof link_buf, link_place));
    arrive(answer, 9, came);
    arrive(answer + 9, length - 9, came);
    must(pumxaqert_message(table, table_len, N, S, C, out, ROOM, link_buf + came[1], came[2], values));
    save(values);
    show("send", out, values[2], N - 1);

    /* With a last dependency that says more than three copies have: the offset in values[3] names that field. */
    answer[length - 2] = 1;
    uint32_t wrong = pumxaqert_message(table, table_len, N, S, C, out, ROOM, answer, length, values);
    printf("damaged: refusal %u, byte %zu\n", (unsigned)wrong, values[3]);

    /* No message begins with a 0: it stops the link's stream, at the byte after the answer. */
    const uint8_t stray[1] = {0};
    arrive(stray, 1, came);
    printf("the link is dropped at byte %zu\n", came[1]);
}

/* What is settled is handed out; the marks are saved in the order of the list before anybody is told. */
static void hand_out(void) {
    uint16_t list[LIST];
    size_t codes, length;
    must(pumxaqert_hand_out(table, table_len, N, S, C, list, LIST, &codes));
    for (size_t i = 0; i < codes; i++) {
        size_t owner = list[i] / 256, number = list[i] % 256;
        must(pumxaqert_mark_entry(table, table_len, N, S, C, entry, entry_len, owner, number, &length));
        append(entry, length);
        printf("handed out %zu.%zu: an entry of %zu bytes\n", owner, number, length);
    }
}

/* Another edit: of its entry the disk gets 100 bytes, and then the power is gone. Nothing was sent, nobody was answered. */
static void cut_off(void) {
    size_t values[4], length;
    must(pumxaqert_request(table, table_len, N, S, C, out, ROOM, WRITE, 7, 0, 101, values));
    must(pumxaqert_record_entry(table, table_len, N, S, C, entry, entry_len, values[0], values[1], &length));
    append(entry, 100);
    printf("cut off after 100 bytes of the entry of %zu.%zu\n", values[0], values[1]);
}

int main(void) {
    uint64_t settled[5];
    size_t values[4];
    table_len = pumxaqert_table_length(N, S);
    entry_len = pumxaqert_entry_length(RECORD);
    table = malloc(table_len);
    entry = malloc(entry_len);
    /* A host's journal has a name, and the disk has that too, before the first entry. */
    journal = tmpfile();
    must(!table || !entry || !journal);
    start();

    take(WRITE, 7, 0, 100);
    answered();
    hand_out();
    cut_off();
    start();

    /* What was saved is still there, and what was not can be asked for again. */
    must(pumxaqert_settled(table, table_len, N, S, C, 0, 1, settled));
    printf("settled %u: op %u, key %u, second key %u, edit %u\n", (unsigned)settled[0], (unsigned)settled[1],
           (unsigned)settled[2], (unsigned)settled[3], (unsigned)settled[4]);
    take(WRITE, 7, 0, 101);
    /* A pin moves from object 7 to object 8: ordered against the edits of both. */
    take(REWIRE, 7, 8, 102);

    /* NULL with length 0 is an empty area: no room at all is refusal 2. */
    printf("no room: refusal %u\n", (unsigned)pumxaqert_nudge(table, table_len, N, S, C, NULL, 0, 0, 1, values));
    return 0;
}
