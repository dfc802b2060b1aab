// Makes the data that crates/make_data makes for a number from 1 to 1000, the same bytes, for any number up to 200000.
// The lines are those of crates/app_sample_data/specs/Lines.antt, by the same names. For measurements: nothing here is proved.
#include <errno.h>
#include <stdint.h>
#include <stdio.h>
#include <stdlib.h>
#include <string.h>
#include <sys/stat.h>

typedef uint64_t u64;

// The number that the data is made for, and the folder.
static u64 n;
static const char *folder;

// The open file, and what is not yet written of it.
static FILE *file;
static char path[4096];
static char buffer[1 << 20];
static size_t used;

static void fail(void) {
    fprintf(stderr, "big_data: %s: %s\n", path, strerror(errno));
    exit(5);
}

static void flush(void) {
    if (fwrite(buffer, 1, used, file) != used)
        fail();
    used = 0;
}

static void begin(const char *name) {
    if ((size_t)snprintf(path, sizeof path, "%s/%s", folder, name) >= sizeof path) {
        errno = ENAMETOOLONG;
        fail();
    }
    file = fopen(path, "w");
    if (!file)
        fail();
}

static void end(void) {
    flush();
    if (fclose(file))
        fail();
}

// A line has far fewer bytes than are left here.
static void room(void) {
    if (used > sizeof buffer - 4096)
        flush();
}

static void put(char byte) { buffer[used++] = byte; }

static void text(const char *bytes) {
    while (*bytes)
        put(*bytes++);
}

static void digits(u64 number, int places) {
    for (int at = places - 1; at >= 0; at--) {
        buffer[used + at] = '0' + number % 10;
        number /= 10;
    }
    used += places;
}

static void decimal(u64 number) {
    int places = 1;
    for (u64 rest = number; rest > 9; rest /= 10)
        places++;
    digits(number, places);
}

static void bar(void) { put('|'); }

static void number(u64 value) { decimal(value), bar(); }

static void word(const char *bytes) { text(bytes), bar(); }

static void label(const char *front, u64 key) { text(front), digits(key, 9), bar(); }

static void money(int64_t hundredths) {
    u64 size = hundredths < 0 ? -hundredths : hundredths;
    if (hundredths < 0)
        put('-');
    decimal(size / 100), put('.'), digits(size % 100, 2), bar();
}

static u64 draw(u64 column, u64 key, u64 count) {
    return (key * 2654435761u + column * 40503u + n * 97u) % (1ull << 32) / 256 % count;
}

// Each day from 1992-01-01 on as YYYY-MM-DD: those of orders, and up to 151 later.
enum { DAYS = 2406 + 121 + 31 };
static char dates[DAYS][sizeof "YYYY-MM-DD"];

static void write_digits(char *to, int number, int places) {
    while (places--)
        to[places] = '0' + number % 10, number /= 10;
}

static void fill_dates(void) {
    static const int lengths[] = {31, 28, 31, 30, 31, 30, 31, 31, 30, 31, 30, 31};
    int year = 1992, month = 0, day = 1;
    for (int at = 0; at < DAYS; at++) {
        memcpy(dates[at], "YYYY-MM-DD", sizeof dates[at]);
        write_digits(dates[at], year, 4), write_digits(dates[at] + 5, month + 1, 2), write_digits(dates[at] + 8, day, 2);
        // Of the years at hand each fourth one is a leap year.
        if (day++ == lengths[month] + (month == 1 && year % 4 == 0))
            day = 1, month++;
        if (month == 12)
            month = 0, year++;
    }
}

static void date(u64 days) { word(dates[days]); }

static const char *regions[] = {"AFRICA", "AMERICA", "ASIA", "EUROPE", "MIDDLE EAST"};
static const char *nations[] = {
    "ALGERIA", "ARGENTINA", "BRAZIL",  "CANADA",       "EGYPT",   "ETHIOPIA", "FRANCE",         "GERMANY", "INDIA",
    "INDONESIA", "IRAN",    "IRAQ",    "JAPAN",        "JORDAN",  "KENYA",    "MOROCCO",        "MOZAMBIQUE", "PERU",
    "CHINA",   "ROMANIA",   "SAUDI ARABIA", "VIETNAM", "RUSSIA",  "UNITED KINGDOM", "UNITED STATES"};
static const int nation_regions[] = {0, 1, 1, 1, 4, 0, 3, 3, 2, 2, 4, 4, 2, 4, 0, 0, 0, 1, 2, 3, 4, 2, 3, 3, 1};
static const char *colours[] = {"green", "forest", "red", "blue", "pink", "plum", "navy", "snow"};
static const char *type_sizes[] = {"STANDARD", "SMALL", "MEDIUM", "LARGE", "ECONOMY", "PROMO"};
static const char *type_finishes[] = {"ANODIZED", "BURNISHED", "PLATED", "POLISHED", "BRUSHED"};
static const char *type_metals[] = {"TIN", "NICKEL", "BRASS", "STEEL", "COPPER"};
static const char *container_sizes[] = {"SM", "LG", "MED", "JUMBO", "WRAP"};
static const char *container_kinds[] = {"CASE", "BOX", "BAG", "JAR", "PKG", "PACK", "CAN", "DRUM"};
static const char *market_segments[] = {"AUTOMOBILE", "BUILDING", "FURNITURE", "MACHINERY", "HOUSEHOLD"};
static const char *order_statuses[] = {"F", "O", "P"};
static const char *order_priorities[] = {"1-URGENT", "2-HIGH", "3-MEDIUM", "4-NOT SPECIFIED", "5-LOW"};
static const char *return_flags[] = {"R", "A", "N"};
static const char *line_statuses[] = {"O", "F"};
static const char *ship_instructions[] = {"DELIVER IN PERSON", "COLLECT COD", "NONE", "TAKE BACK RETURN"};
static const char *ship_modes[] = {"REG AIR", "AIR", "RAIL", "SHIP", "TRUCK", "MAIL", "FOB"};

static void region_line(u64 k) {
    number(k), word(regions[k]), bar(), put('\n');
}

static void nation_line(u64 k) {
    number(k), word(nations[k]), number(nation_regions[k]), bar(), put('\n');
}

static void balance(u64 column, u64 k) { money((int64_t)draw(column, k, 1100000) - 99999); }

static void residence(u64 column, u64 k) {
    u64 nation = draw(column, k, 25);
    put('A'), number(k), number(nation), decimal(10 + nation), word("-100-200-3000");
}

static void supplier_line(u64 k) {
    number(k), label("Supplier#", k), residence(1, k), balance(2, k);
    word(k % 7 == 0 ? "Customer Complaints" : "ok"), put('\n');
}

static u64 retail_price(u64 part) { return 90000 + part; }

static void part_line(u64 k) {
    u64 maker = 1 + draw(5, k, 5);
    number(k), text(colours[draw(3, k, 8)]), put(' '), word(colours[draw(4, k, 8)]);
    text("Manufacturer#"), number(maker), text("Brand#"), decimal(maker), number(1 + draw(6, k, 5));
    text(type_sizes[draw(7, k, 6)]), put(' '), text(type_finishes[draw(8, k, 5)]), put(' ');
    word(type_metals[draw(9, k, 5)]), number(1 + draw(10, k, 50));
    text(container_sizes[draw(11, k, 5)]), put(' '), word(container_kinds[draw(12, k, 8)]);
    money(retail_price(k)), bar(), put('\n');
}

static u64 supplier_of(u64 part, u64 i) { return 1 + (part + 2 * n * i) % (10 * n); }

static void partsupp_line(u64 k, u64 i) {
    number(k), number(supplier_of(k, i)), number(1 + draw(13, 4 * k + i, 9999));
    money(100 + draw(14, 4 * k + i, 99901)), bar(), put('\n');
}

// The four lines of a part, by ascending supplier.
static void partsupp_lines(u64 k) {
    u64 order[4];
    for (u64 i = 0; i < 4; i++) {
        u64 at = i;
        for (; at > 0 && supplier_of(k, order[at - 1]) > supplier_of(k, i); at--)
            order[at] = order[at - 1];
        order[at] = i;
    }
    for (int at = 0; at < 4; at++)
        partsupp_line(k, order[at]);
}

static void customer_line(u64 k) {
    number(k), label("Customer#", k), residence(15, k), balance(16, k);
    word(market_segments[draw(17, k, 5)]), bar(), put('\n');
}

static u64 order_day(u64 k) { return draw(21, k, 2406); }

static void order_line(u64 k) {
    u64 customer = 1 + draw(18, k, 15 * n);
    number(k), number(customer % 3 == 0 ? customer - 1 : customer), word(order_statuses[draw(19, k, 3)]);
    money(100000 + draw(20, k, 40000000)), date(order_day(k)), word(order_priorities[draw(22, k, 5)]);
    label("Clerk#", 1 + draw(23, k, 10)), number(0), word(k % 5 == 0 ? "special requests" : "plain"), put('\n');
}

static void lineitem_line(u64 k, u64 j) {
    u64 x = 4 * k + j, part = 1 + draw(24, x, 20 * n), quantity = 1 + draw(26, x, 50);
    u64 shipped = order_day(k) + 1 + draw(31, x, 121);
    number(k), number(part), number(supplier_of(part, draw(25, x, 4))), number(j);
    money(100 * quantity), money(quantity * retail_price(part)), money(draw(27, x, 11)), money(draw(28, x, 9));
    word(return_flags[draw(29, x, 3)]), word(line_statuses[draw(30, x, 2)]);
    date(shipped), date(order_day(k) + 30 + draw(32, x, 61)), date(shipped + 1 + draw(33, x, 30));
    word(ship_instructions[draw(34, x, 4)]), word(ship_modes[draw(35, x, 7)]), bar(), put('\n');
}

static void order_lineitems(u64 k) {
    for (u64 j = 1; j < 2 + k % 4; j++)
        lineitem_line(k, j);
}

static void delete_line(u64 k) { number(k), put('\n'); }

// A file with the lines of the keys from the first to the one before the last.
static void lines(const char *name, void (*line)(u64), u64 first, u64 last) {
    begin(name);
    for (u64 k = first; k < last; k++)
        room(), line(k);
    end();
}

int main(int count, char **words) {
    char *rest = "";
    n = count == 3 ? strtoull(words[1], &rest, 10) : 0;
    if (n < 1 || n > 200000 || *rest) {
        fprintf(stderr, "usage: big_data N DIR (N from 1 to 200000; about N / 80000 of the benchmark's scale 1)\n");
        return 2;
    }
    folder = words[2];
    if (mkdir(folder, 0777) && errno != EEXIST) {
        snprintf(path, sizeof path, "%s", folder);
        fail();
    }
    fill_dates();
    lines("region.tbl", region_line, 0, 5);
    lines("nation.tbl", nation_line, 0, 25);
    lines("part.tbl", part_line, 1, 20 * n + 1);
    lines("supplier.tbl", supplier_line, 1, 10 * n + 1);
    lines("partsupp.tbl", partsupp_lines, 1, 20 * n + 1);
    lines("customer.tbl", customer_line, 1, 15 * n + 1);
    lines("orders.tbl", order_line, 1, 30 * n + 1);
    lines("lineitem.tbl", order_lineitems, 1, 30 * n + 1);
    lines("orders.tbl.u1", order_line, 30 * n + 1, 33 * n + 1);
    lines("lineitem.tbl.u1", order_lineitems, 30 * n + 1, 33 * n + 1);
    lines("delete.1", delete_line, 1, 3 * n + 1);
    return 0;
}
