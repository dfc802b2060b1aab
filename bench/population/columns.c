// Columns that more than one table has.
#include "population.h"
#include <stdio.h>
#include <string.h>

int64_t suppliers, parts, customers, orders, clerks;

static char dates[DAYS][10];

void make_dates(void) {
    static const int lengths[] = {31, 28, 31, 30, 31, 30, 31, 31, 30, 31, 30, 31};
    int year = 1992, month = 0, day = 0;
    for (int at = 0; at < DAYS; at++) {
        char text[64];
        snprintf(text, sizeof text, "%04d-%02d-%02d", year, month + 1, day + 1);
        memcpy(dates[at], text, 10);
        // Of the years at hand each fourth one is a leap year.
        if (++day == lengths[month] + (month == 1 && year % 4 == 0))
            day = 0, month++;
        if (month == 12)
            month = 0, year++;
    }
}

void put_date(Output *out, int64_t day) { put_bytes(out, dates[day], 10), put_byte(out, '|'); }

// 10 to 40 letters, five of each number that is drawn. (dbgen's own range overflows to -2^31, so its numbers are negative.)
void put_address(Output *out, int stream) {
    static const char letters[] = "0123456789abcdefghijklmnopqrstuvwxyz ABCDEFGHIJKLMNOPQRSTUVWXYZ,";
    int64_t length = draw(stream, 10, 40);
    uint64_t bits = 0;
    for (int64_t at = 0; at < length; at++, bits >>= 6) {
        if (at % 5 == 0)
            bits = (uint64_t)(int64_t)(draw_unit(stream) * -2147483648.0);
        put_byte(out, letters[bits & 63]);
    }
    put_byte(out, '|');
}

void put_phone(Output *out, int stream, int64_t nation) {
    put_digits(out, (uint64_t)(10 + nation), 2), put_byte(out, '-');
    put_digits(out, (uint64_t)draw(stream, 100, 999), 3), put_byte(out, '-');
    put_digits(out, (uint64_t)draw(stream, 100, 999), 3), put_byte(out, '-');
    put_digits(out, (uint64_t)draw(stream, 1000, 9999), 4), put_byte(out, '|');
}

int64_t retail_price(int64_t part) { return 90000 + part / 10 % 20001 + 100 * (part % 1000); }

int64_t supplier_of(int64_t part, int64_t which) {
    return (part + which * (suppliers / 4 + (part - 1) / suppliers)) % suppliers + 1;
}
