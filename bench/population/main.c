// bench/dbgen SF DIR [--seed N] [--refreshes K]: the eight tables of TPC Benchmark H at scale factor SF, and K refresh
// sets, into DIR, which is made where it isn't there. Without a seed, or with 0, all streams start where those of dbgen
// start, so the rows are dbgen's; another seed gives other rows and other comments. The same words give the same bytes. It
// takes 320 MB of memory at any scale factor. Status 0; 1 with a line on standard error for a file or memory that fails, or
// a scale factor at which a part would have a supplier twice; 2 for wrong words.
//
// Each row ends with a bar and LF; a delete file has an order key in each line, without a bar.
//
// What is known of dbgen's own files agrees (bench/dbgen_check): the bytes of each file at scale 1, the number of lineitems
// at 0.01, 0.1 and 1, and 67 rows of all eight tables at scale 1.
//
// Where dbgen, and so this program without a seed, departs from the specification:
// - Suppliers whose comment has complaints or recommendations: each with chance 1/1000, then half and half, so about 10 at
//   scale 1, where the clause has 5 and 5. With a seed they are exactly those.
// - The cents of an order's total price are dropped after a line's discount and again after its tax.
// Where this program departs from dbgen:
// - A scale factor above 1 that isn't whole is taken as it is, dbgen cuts it; row counts are rounded, dbgen cuts them.
// - Scale factors end at 1000.
// - Refresh sets go on with the streams after the tables, as those of `dbgen -U` do, but no published row was at hand to
//   compare them with. dbgen's delete files have a bar after each key.
#define _POSIX_C_SOURCE 200809L
#include "population.h"
#include <errno.h>
#include <math.h>
#include <stdio.h>
#include <stdlib.h>
#include <string.h>
#include <sys/stat.h>

static int say_usage(void) {
    fputs("usage: bench/dbgen SF DIR [--seed N] [--refreshes K]\n"
          "SF is the scale factor: 0.01, or 0.024 to 1000; N is a whole number, where 0 (as without it) gives dbgen's own rows;\n"
          "K, from 1 to 1000, is the number of refresh sets\n",
          stderr);
    return 2;
}

// Whether the text is a whole number of the range, which it then gives.
static int is_whole(const char *text, uint64_t most, uint64_t *number) {
    char *rest;
    if (text[0] < '0' || text[0] > '9')
        return 0;
    *number = strtoull(text, &rest, 10);
    return !*rest && *number <= most;
}

static void set_counts(double scale) {
    suppliers = llround(10000 * scale);
    parts = llround(200000 * scale);
    customers = llround(150000 * scale);
    orders = llround(1500000 * scale);
    clerks = scale < 1 ? 1000 : llround(1000 * scale);
}

// Whether the clause's formula gives some part a supplier twice.
static int repeats_supplier(void) {
    for (int64_t round = 0; round <= (parts - 1) / suppliers; round++)
        for (int64_t which = 1; which < 4; which++)
            if (which * (suppliers / 4 + round) % suppliers == 0)
                return 1;
    return 0;
}

int main(int count, char **words) {
    uint64_t seed = 0, sets = 0;
    if (count < 3 || count % 2 == 0)
        return say_usage();
    char *rest;
    double scale = strtod(words[1], &rest);
    if (*rest || !(scale >= 0.0004 && scale <= 1000))
        return say_usage();
    folder = words[2];
    for (int at = 3; at < count; at += 2) {
        int is_right = !strcmp(words[at], "--seed")        ? is_whole(words[at + 1], UINT64_MAX, &seed)
                       : !strcmp(words[at], "--refreshes") ? is_whole(words[at + 1], 1000, &sets) && sets > 0
                                                           : 0;
        if (!is_right)
            return say_usage();
    }
    set_counts(scale);
    if (repeats_supplier())
        fail("by the specification's formula a part has a supplier twice at scale factor ", words[1]);
    if (mkdir(folder, 0777) && errno != EEXIST)
        fail("cannot make ", folder);
    if (seed)
        start_streams(seed);
    make_dates();
    make_words();
    make_sentences();
    make_regions();
    make_nations();
    make_suppliers(seed == 0);
    make_parts();
    make_customers();
    make_orders();
    int64_t each = llround(1500 * scale);
    make_refreshes(each ? each : 1, (int)sets);
    return 0;
}
