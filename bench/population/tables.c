// The tables but orders and lineitem.
#include "population.h"
#include <stdlib.h>
#include <string.h>

void make_regions(void) {
    static const char *const names[] = {"AFRICA", "AMERICA", "ASIA", "EUROPE", "MIDDLE EAST"};
    Output *out = open_file("region.tbl", 0);
    for (int key = 0; key < 5; key++) {
        put_number(out, key), put_text(out, names[key]), put_comment(out, REGION_COMMENT, 72);
        end_line(out);
    }
    close_file(out);
}

void make_nations(void) {
    static const struct {
        const char *name;
        int region;
    } nations[] = {
        {"ALGERIA", 0},      {"ARGENTINA", 1},    {"BRAZIL", 1},  {"CANADA", 1},         {"EGYPT", 4},
        {"ETHIOPIA", 0},     {"FRANCE", 3},       {"GERMANY", 3}, {"INDIA", 2},          {"INDONESIA", 2},
        {"IRAN", 4},         {"IRAQ", 4},         {"JAPAN", 2},   {"JORDAN", 4},         {"KENYA", 0},
        {"MOROCCO", 0},      {"MOZAMBIQUE", 0},   {"PERU", 1},    {"CHINA", 2},          {"ROMANIA", 3},
        {"SAUDI ARABIA", 4}, {"VIETNAM", 2},      {"RUSSIA", 3},  {"UNITED KINGDOM", 3}, {"UNITED STATES", 1},
    };
    Output *out = open_file("nation.tbl", 0);
    for (int key = 0; key < 25; key++) {
        put_number(out, key), put_text(out, nations[key].name), put_number(out, nations[key].region);
        put_comment(out, NATION_COMMENT, 72);
        end_line(out);
    }
    close_file(out);
}

// What is written into a supplier's comment.
enum { NOTHING, COMPLAINTS, RECOMMENDS };

// For each supplier key what its comment gets: exactly 5 complaints and 5 recommendations in 10,000 suppliers, at least one
// of each.
static uint8_t *marks_by_clause(void) {
    uint8_t *marks = calloc((size_t)suppliers + 1, 1);
    if (!marks)
        fail("no memory", "");
    int64_t each = (suppliers + 1000) / 2000;
    for (int kind = COMPLAINTS; kind <= RECOMMENDS; kind++)
        for (int64_t left = each ? each : 1; left;) {
            int64_t key = draw(CHOSEN_SUPPLIERS, 1, suppliers);
            if (!marks[key])
                marks[key] = (uint8_t)kind, left--;
        }
    return marks;
}

// A supplier's comment, into which a mark of the list is written or, where there is none, the one that dbgen draws: with
// chance 1/1000, then half and half.
static void put_supplier_comment(Output *out, const uint8_t *marks, int64_t key) {
    size_t length;
    const char *text = comment_text(SUPPLIER_COMMENT, 63, &length);
    char *comment = next_place(out);
    put_bytes(out, text, length), put_byte(out, '|');
    // (each is drawn for each row, so the streams go on alike)
    int64_t gap = draw(SUPPLIER_GAP, 0, (int64_t)length - 19);
    int64_t offset = draw(SUPPLIER_OFFSET, 0, (int64_t)length - 19 - gap);
    int is_chosen = draw(SUPPLIER_MARK, 1, 10000) <= 10;
    int kind = draw(SUPPLIER_KIND, 0, 100) < 50 ? COMPLAINTS : RECOMMENDS;
    int mark = marks ? marks[key] : is_chosen ? kind : NOTHING;
    if (mark != NOTHING) {
        memcpy(comment + offset, "Customer ", 9);
        memcpy(comment + offset + 9 + gap, mark == COMPLAINTS ? "Complaints" : "Recommends", 10);
    }
}

void make_suppliers(int is_dbgens) {
    Output *out = open_file("supplier.tbl", 0);
    uint8_t *marks = is_dbgens ? NULL : marks_by_clause();
    for (int64_t key = 1; key <= suppliers; key++) {
        put_number(out, key), put_label(out, "Supplier#", key, 9), put_address(out, SUPPLIER_ADDRESS);
        int64_t nation = draw(SUPPLIER_NATION, 0, 24);
        put_number(out, nation), put_phone(out, SUPPLIER_PHONE, nation);
        put_money(out, draw(SUPPLIER_BALANCE, -99999, 999999));
        put_supplier_comment(out, marks, key);
        end_line(out), end_row(SUPPLIER_ADDRESS, SUPPLIER_GAP);
    }
    free(marks);
    close_file(out);
}

// Five of the 92 colours, each once: the front of a shuffle.
static void put_part_name(Output *out) {
    uint8_t places[92];
    for (int at = 0; at < 92; at++)
        places[at] = (uint8_t)at;
    for (int at = 0; at < 5; at++) {
        int64_t other = draw(PART_NAME, at, 91);
        uint8_t word = places[other];
        places[other] = places[at];
        places[at] = word;
        put_bytes(out, colours.word[word], colours.length[word]), put_byte(out, at < 4 ? ' ' : '|');
    }
}

void make_parts(void) {
    Output *out = open_file("part.tbl", 0), *supplied = open_file("partsupp.tbl", 0);
    for (int64_t key = 1; key <= parts; key++) {
        put_number(out, key), put_part_name(out);
        int64_t maker = draw(PART_MAKER, 1, 5);
        put_label(out, "Manufacturer#", maker, 1), put_label(out, "Brand#", maker * 10 + draw(PART_BRAND, 1, 5), 1);
        put_choice(out, &types, PART_TYPE), put_number(out, draw(PART_SIZE, 1, 50));
        put_choice(out, &containers, PART_CONTAINER), put_money(out, retail_price(key));
        put_comment(out, PART_COMMENT, 14), end_line(out);
        for (int which = 0; which < 4; which++) {
            put_number(supplied, key), put_number(supplied, supplier_of(key, which));
            put_number(supplied, draw(PARTSUPP_QUANTITY, 1, 9999)), put_money(supplied, draw(PARTSUPP_COST, 100, 100000));
            put_comment(supplied, PARTSUPP_COMMENT, 124), end_line(supplied);
        }
        end_row(PART_MAKER, PARTSUPP_COMMENT);
    }
    close_file(out), close_file(supplied);
}

void make_customers(void) {
    Output *out = open_file("customer.tbl", 0);
    for (int64_t key = 1; key <= customers; key++) {
        put_number(out, key), put_label(out, "Customer#", key, 9), put_address(out, CUSTOMER_ADDRESS);
        int64_t nation = draw(CUSTOMER_NATION, 0, 24);
        put_number(out, nation), put_phone(out, CUSTOMER_PHONE, nation);
        put_money(out, draw(CUSTOMER_BALANCE, -99999, 999999)), put_choice(out, &segments, CUSTOMER_SEGMENT);
        put_comment(out, CUSTOMER_COMMENT, 73);
        end_line(out), end_row(CUSTOMER_ADDRESS, CUSTOMER_COMMENT);
    }
    close_file(out);
}
