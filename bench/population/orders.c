// Orders with their lineitems, and refresh sets, which are further orders and the keys of orders to delete.
#include "population.h"

// The key of order `place`: the tables take the first 8 of each 32 keys (part 0), refresh sets the second 8 (part 1), and
// so on.
static int64_t order_key(int64_t place, int64_t part) { return ((place >> 3 << 2) + part) << 3 | (place & 7); }

// The customer that is drawn, or one beside it: a third of the customers has no orders.
static int64_t draw_customer(void) {
    int64_t customer = draw(ORDER_CUSTOMER, 1, customers);
    for (int64_t step = 1; customer % 3 == 0; step = -step) {
        customer += step;
        if (customer > customers)
            customer = customers;
    }
    return customer;
}

// Writes one line of an order of the day `date`. Gives its price in cents with discount and tax, and tells whether it is
// shipped.
static int64_t make_line(Output *out, int64_t key, int number, int64_t date, int *is_shipped) {
    int64_t quantity = draw(LINE_QUANTITY, 1, 50), discount = draw(LINE_DISCOUNT, 0, 10), tax = draw(LINE_TAX, 0, 8);
    int64_t part = draw(LINE_PART, 1, parts), price = quantity * retail_price(part);
    int64_t ship = date + draw(LINE_SHIP, 1, 121), commit = date + draw(LINE_COMMIT, 30, 90);
    int64_t receipt = ship + draw(LINE_RECEIPT, 1, 30);
    put_number(out, key), put_number(out, part), put_number(out, supplier_of(part, draw(LINE_SUPPLIER, 0, 3)));
    put_number(out, number), put_number(out, quantity);
    put_money(out, price), put_money(out, discount), put_money(out, tax);
    if (receipt <= CURRENT_DATE)
        put_choice(out, &flags, LINE_FLAG);
    else
        put_text(out, "N");
    *is_shipped = ship <= CURRENT_DATE;
    put_text(out, *is_shipped ? "F" : "O");
    put_date(out, ship), put_date(out, commit), put_date(out, receipt);
    put_choice(out, &instructions, LINE_INSTRUCTION), put_choice(out, &modes, LINE_MODE);
    put_comment(out, LINE_COMMENT, 27), end_line(out);
    // Cents are dropped at each step, as dbgen does.
    return price * (100 - discount) / 100 * (100 + tax) / 100;
}

static void make_order(Output *out, Output *lines, int64_t key) {
    int64_t customer = draw_customer(), date = draw(ORDER_DATE, 0, LAST_ORDER);
    int64_t count = draw(ORDER_LINES, 1, 7), total = 0, shipped = 0;
    for (int number = 1; number <= count; number++) {
        int is_shipped;
        total += make_line(lines, key, number, date, &is_shipped);
        shipped += is_shipped;
    }
    put_number(out, key), put_number(out, customer);
    put_text(out, shipped == count ? "F" : shipped ? "P" : "O");
    put_money(out, total), put_date(out, date), put_choice(out, &priorities, ORDER_PRIORITY);
    put_label(out, "Clerk#", draw(ORDER_CLERK, 1, clerks), 9), put_number(out, 0);
    put_comment(out, ORDER_COMMENT, 49);
    end_line(out), end_row(ORDER_CLERK, LINE_COMMENT);
}

void make_orders(void) {
    Output *out = open_file("orders.tbl", 0), *lines = open_file("lineitem.tbl", 0);
    for (int64_t place = 1; place <= orders; place++)
        make_order(out, lines, order_key(place, 0));
    close_file(out), close_file(lines);
}

void make_refreshes(int64_t orders_each, int sets) {
    for (int set = 1; set <= sets; set++) {
        Output *out = open_file("orders.tbl.u", set), *lines = open_file("lineitem.tbl.u", set);
        Output *deletes = open_file("delete.", set);
        for (int64_t place = (set - 1) * orders_each + 1; place <= set * orders_each; place++) {
            make_order(out, lines, order_key(place, 1 + set / 1000));
            put_digits(deletes, (uint64_t)order_key(place, 0), 1), end_line(deletes);
        }
        close_file(out), close_file(lines), close_file(deletes);
    }
}
