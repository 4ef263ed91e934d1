/*
 * The job stream's bytes: messages in, lists and words out. A message is a kind, the length of its body, and the body; everything is little-endian, as this
 * machine is. A list has exactly the memory of its entries, so that a memory checker sees a step beyond it.
 */
#ifndef OSTROVUC_WIRE_H
#define OSTROVUC_WIRE_H

#include <stdbool.h>
#include <stddef.h>
#include <stdint.h>
#include <stdio.h>
#include <stdlib.h>
#include <string.h>

/* What is left of a job's body. */
struct reader {
    const uint8_t *at;
    size_t left;
};

/* An answer's body. */
struct writer {
    uint8_t *bytes;
    size_t length;
    size_t room;
};

/* Ends the program: the stream is not one of jobs. */
static void damaged(const char *what) {
    fprintf(stderr, "jobs: damaged stream: %s\n", what);
    exit(1);
}

static void *memory(void *old, size_t bytes) {
    void *new = realloc(old, bytes == 0 ? 1 : bytes);
    if (new == NULL) {
        fputs("jobs: no memory\n", stderr);
        exit(1);
    }
    return new;
}

static void *new_list(size_t length, size_t entry) {
    return memory(NULL, length * entry);
}

static void read_bytes(struct reader *from, void *to, size_t count) {
    if (count > from->left) damaged("a message ends too early");
    if (count != 0) memcpy(to, from->at, count);
    from->at += count;
    from->left -= count;
}

static uint32_t read_word(struct reader *from) {
    uint32_t word;
    read_bytes(from, &word, sizeof word);
    return word;
}

static uint64_t read_long(struct reader *from) {
    uint64_t word;
    read_bytes(from, &word, sizeof word);
    return word;
}

static float read_single(struct reader *from) {
    float single;
    read_bytes(from, &single, sizeof single);
    return single;
}

/* A word that is at most `most`. */
static uint32_t read_up_to(struct reader *from, uint32_t most) {
    uint32_t word = read_word(from);
    if (word > most) damaged("a flag or a set is too large");
    return word;
}

/* A list of entries that travel as they stand in memory; its length goes to `length`. */
static void *read_list(struct reader *from, size_t entry, size_t *length) {
    *length = read_word(from);
    if (*length > from->left / entry) damaged("a list does not fit its message");
    void *entries = new_list(*length, entry);
    read_bytes(from, entries, *length * entry);
    return entries;
}

static void write_bytes(struct writer *to, const void *from, size_t count) {
    if (count > to->room - to->length) {
        to->room = 2 * to->room + count;
        to->bytes = memory(to->bytes, to->room);
    }
    if (count != 0) memcpy(to->bytes + to->length, from, count);
    to->length += count;
}

static void write_word(struct writer *to, uint32_t word) {
    write_bytes(to, &word, sizeof word);
}

static void write_double(struct writer *to, double number) {
    write_bytes(to, &number, sizeof number);
}

static void write_list(struct writer *to, const void *entries, size_t entry, size_t length) {
    write_word(to, (uint32_t)length);
    write_bytes(to, entries, length * entry);
}

/* A list as runs of equal entries: its length, then a list of (value, length). */
static void write_runs(struct writer *to, const uint32_t *entries, size_t length) {
    write_word(to, (uint32_t)length);
    size_t place = to->length;
    uint32_t runs = 0;
    write_word(to, runs);
    for (size_t end, first = 0; first < length; first = end) {
        for (end = first + 1; end < length && entries[end] == entries[first];) end++;
        write_word(to, entries[first]);
        write_word(to, (uint32_t)(end - first));
        runs++;
    }
    memcpy(to->bytes + place, &runs, sizeof runs);
}

/* The next message's body, to be freed, or NULL where the stream ends between two. */
static uint8_t *next_message(uint32_t *kind, uint32_t *length) {
    uint32_t head[2];
    size_t got = fread(head, 1, sizeof head, stdin);
    if (got == 0) return NULL;
    if (got != sizeof head) damaged("a message ends in its head");
    *kind = head[0];
    *length = head[1];
    uint8_t *body = new_list(*length, 1);
    if (fread(body, 1, *length, stdin) != *length) damaged("a message ends in its body");
    return body;
}

static void put_message(uint32_t kind, const struct writer *body) {
    uint32_t head[2] = {kind, (uint32_t)body->length};
    fwrite(head, 1, sizeof head, stdout);
    fwrite(body->bytes, 1, body->length, stdout);
}

#endif
