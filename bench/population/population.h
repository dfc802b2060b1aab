// The tables and refresh sets of TPC Benchmark H as its specification's clause 4.2, "Database Population", has them, at any
// scale factor. See main.c for what the program does and how far its rows are dbgen's.
//
//   streams.c   the random numbers of each column
//   files.c     files that are written, and how numbers, money and texts are spelled
//   words.c     the lists of words, with how often each is taken
//   comments.c  the pseudo text that comments are pieces of
//   columns.c   dates, addresses, telephone numbers, prices, suppliers of a part
//   tables.c    region, nation, supplier, part and partsupp, customer
//   orders.c    orders and lineitem, refresh sets
#ifndef POPULATION_H
#define POPULATION_H
#include <stddef.h>
#include <stdint.h>

// ---- streams.c

// Each column has a stream of random numbers of its own: its name, where dbgen's own stream starts, and how many numbers a
// row of the table may take of it. A stream of 0 numbers a row belongs to no row.
#define STREAMS(EACH)                                                                                                         \
    EACH(PART_MAKER, 1, 1)                                                                                                    \
    EACH(PART_BRAND, 46831694, 1)                                                                                             \
    EACH(PART_TYPE, 1841581359, 1)                                                                                            \
    EACH(PART_SIZE, 1193163244, 1)                                                                                            \
    EACH(PART_CONTAINER, 727633698, 1)                                                                                        \
    EACH(PART_COMMENT, 804159733, 2)                                                                                          \
    EACH(PART_NAME, 709314158, 92)                                                                                            \
    EACH(PARTSUPP_QUANTITY, 1671059989, 4)                                                                                    \
    EACH(PARTSUPP_COST, 1051288424, 4)                                                                                        \
    EACH(PARTSUPP_COMMENT, 1961692154, 8)                                                                                     \
    EACH(ORDER_CLERK, 1171034773, 1)                                                                                          \
    EACH(ORDER_COMMENT, 276090261, 2)                                                                                         \
    EACH(ORDER_DATE, 1066728069, 1)                                                                                           \
    EACH(ORDER_PRIORITY, 591449447, 1)                                                                                        \
    EACH(ORDER_CUSTOMER, 851767375, 1)                                                                                        \
    EACH(ORDER_LINES, 1434868289, 1)                                                                                          \
    EACH(LINE_QUANTITY, 209208115, 7)                                                                                         \
    EACH(LINE_DISCOUNT, 554590007, 7)                                                                                         \
    EACH(LINE_TAX, 721958466, 7)                                                                                              \
    EACH(LINE_INSTRUCTION, 1371272478, 7)                                                                                     \
    EACH(LINE_MODE, 675466456, 7)                                                                                             \
    EACH(LINE_PART, 1808217256, 7)                                                                                            \
    EACH(LINE_SUPPLIER, 2095021727, 7)                                                                                        \
    EACH(LINE_SHIP, 1769349045, 7)                                                                                            \
    EACH(LINE_COMMIT, 904914315, 7)                                                                                           \
    EACH(LINE_RECEIPT, 373135028, 7)                                                                                          \
    EACH(LINE_FLAG, 717419739, 7)                                                                                             \
    EACH(LINE_COMMENT, 1095462486, 14)                                                                                        \
    EACH(CUSTOMER_ADDRESS, 881155353, 9)                                                                                      \
    EACH(CUSTOMER_NATION, 1489529863, 1)                                                                                      \
    EACH(CUSTOMER_PHONE, 1521138112, 3)                                                                                       \
    EACH(CUSTOMER_BALANCE, 298370230, 1)                                                                                      \
    EACH(CUSTOMER_SEGMENT, 1140279430, 1)                                                                                     \
    EACH(CUSTOMER_COMMENT, 1335826707, 2)                                                                                     \
    EACH(SUPPLIER_ADDRESS, 706178559, 9)                                                                                      \
    EACH(SUPPLIER_NATION, 110356601, 1)                                                                                       \
    EACH(SUPPLIER_PHONE, 884434366, 3)                                                                                        \
    EACH(SUPPLIER_BALANCE, 962338209, 1)                                                                                      \
    EACH(SUPPLIER_COMMENT, 1341315363, 2)                                                                                     \
    EACH(SUPPLIER_OFFSET, 263032577, 1)                                                                                       \
    EACH(SUPPLIER_KIND, 753643799, 1)                                                                                         \
    EACH(SUPPLIER_MARK, 202794285, 1)                                                                                         \
    EACH(SUPPLIER_GAP, 715851524, 1)                                                                                          \
    EACH(NATION_COMMENT, 606179079, 2)                                                                                        \
    EACH(REGION_COMMENT, 1500869201, 2)                                                                                       \
    EACH(SENTENCES, 933588178, 0)                                                                                             \
    EACH(CHOSEN_SUPPLIERS, 1, 0)

#define NAMED(name, start, each_row) name,
enum { STREAMS(NAMED) STREAM_COUNT };
#undef NAMED

// Starts all streams anew, each at a point that the seed and the stream give.
void start_streams(uint64_t seed);
// The next number of a stream, between the two bounds or one of them.
int64_t draw(int stream, int64_t least, int64_t most);
// The next number of a stream, above 0 and below 1.
double draw_unit(int stream);
// Ends a row: brings the streams from the first to the last to where the next row starts.
void end_row(int first, int last);

// ---- files.c

// A file that is being written.
typedef struct Output Output;

// Ends the program with a line on standard error and status 1.
_Noreturn void fail(const char *what, const char *which);
// The folder of the files.
extern const char *folder;
// Opens a file of the folder; a set of 1 or more is put at the name's end.
Output *open_file(const char *name, int set);
void close_file(Output *out);
void put_bytes(Output *out, const char *bytes, size_t count);
void put_byte(Output *out, char byte);
// A number in digits, with zeros in front where it has fewer than `least`.
void put_digits(Output *out, uint64_t number, int least);
void end_line(Output *out);
// The fields below end with a bar.
void put_text(Output *out, const char *text);
void put_number(Output *out, int64_t number);
void put_label(Output *out, const char *front, int64_t number, int least);
void put_money(Output *out, int64_t cents);
// Where the next byte goes: a field that was put can be changed there before its line ends.
char *next_place(Output *out);

// ---- words.c

// A list of words with weights: `by` has the place of a word as many times as its weight says.
typedef struct {
    const char *text;
    int count, total;
    char word[160][32];
    uint8_t length[160], by[640];
} Words;
extern Words nouns, verbs, adjectives, adverbs, prepositions, auxiliaries, terminators, sentences, noun_phrases, verb_phrases;
extern Words colours, segments, priorities, instructions, modes, flags, types, containers;

void make_words(void);
// The place of a word, drawn from a stream.
int choose(const Words *words, int stream);
// A chosen word, as a field.
void put_choice(Output *out, const Words *words, int stream);

// ---- comments.c

void make_sentences(void);
// A piece of the sentences of 0.4 to 1.6 times the mean length.
const char *comment_text(int stream, int mean, size_t *length);
// Such a piece, as a field.
void put_comment(Output *out, int stream, int mean);

// ---- columns.c

// Dates are days after 1992-01-01: how many there are, the last one of an order, and the benchmark's "current date",
// 1995-06-17.
enum { DAYS = 2557, LAST_ORDER = DAYS - 1 - 151, CURRENT_DATE = 1263 };
// How many rows the tables have, and clerks.
extern int64_t suppliers, parts, customers, orders, clerks;

void make_dates(void);
void put_date(Output *out, int64_t day);
void put_address(Output *out, int stream);
void put_phone(Output *out, int stream, int64_t nation);
// The retail price of a part, in cents.
int64_t retail_price(int64_t part);
// The supplier of a part, for which of 0 to 3.
int64_t supplier_of(int64_t part, int64_t which);

// ---- tables.c, orders.c

void make_regions(void);
void make_nations(void);
// With dbgen's own rows the suppliers with complaints are drawn, otherwise there are as many as the clause says.
void make_suppliers(int is_dbgens);
void make_parts(void);
void make_customers(void);
void make_orders(void);
// Refresh sets 1 to `sets`; to be called after make_orders, whose streams they go on with.
void make_refreshes(int64_t orders_each, int sets);

#endif
