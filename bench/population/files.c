// Files are written in pieces of up to ROOM bytes; a line has fewer than LINE.
#include "population.h"
#include <errno.h>
#include <stdio.h>
#include <stdlib.h>
#include <string.h>

enum { ROOM = 1 << 18, LINE = 2048 };

struct Output {
    FILE *file;
    char *room;
    size_t used;
    char path[4096];
};

const char *folder;

void fail(const char *what, const char *which) {
    fprintf(stderr, "dbgen: %s%s\n", what, which);
    exit(1);
}

static void flush(Output *out) {
    if (fwrite(out->room, 1, out->used, out->file) != out->used)
        fail("cannot write ", out->path);
    out->used = 0;
}

Output *open_file(const char *name, int set) {
    Output *out = calloc(1, sizeof *out);
    if (!out || !(out->room = malloc(ROOM)))
        fail("no memory", "");
    int length = set ? snprintf(out->path, sizeof out->path, "%s/%s%d", folder, name, set)
                     : snprintf(out->path, sizeof out->path, "%s/%s", folder, name);
    if (length < 0 || (size_t)length >= sizeof out->path || !(out->file = fopen(out->path, "wb")))
        fail("cannot open ", out->path);
    setvbuf(out->file, NULL, _IONBF, 0);
    return out;
}

void close_file(Output *out) {
    flush(out);
    if (fclose(out->file))
        fail("cannot close ", out->path);
    free(out->room);
    free(out);
}

void put_bytes(Output *out, const char *bytes, size_t count) {
    memcpy(out->room + out->used, bytes, count);
    out->used += count;
}

void put_byte(Output *out, char byte) { out->room[out->used++] = byte; }

void put_digits(Output *out, uint64_t number, int least) {
    char digits[24];
    int count = 0;
    do
        digits[23 - count++] = (char)('0' + number % 10);
    while ((number /= 10) || count < least);
    put_bytes(out, digits + 24 - count, (size_t)count);
}

void end_line(Output *out) {
    put_byte(out, '\n');
    if (out->used > ROOM - LINE)
        flush(out);
}

void put_text(Output *out, const char *text) { put_bytes(out, text, strlen(text)), put_byte(out, '|'); }

void put_number(Output *out, int64_t number) { put_digits(out, (uint64_t)number, 1), put_byte(out, '|'); }

void put_label(Output *out, const char *front, int64_t number, int least) {
    put_bytes(out, front, strlen(front)), put_digits(out, (uint64_t)number, least), put_byte(out, '|');
}

void put_money(Output *out, int64_t cents) {
    if (cents < 0)
        put_byte(out, '-'), cents = -cents;
    put_digits(out, (uint64_t)cents / 100, 1), put_byte(out, '.'), put_digits(out, (uint64_t)cents % 100, 2);
    put_byte(out, '|');
}

char *next_place(Output *out) { return out->room + out->used; }
