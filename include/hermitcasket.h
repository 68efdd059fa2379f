/* Matching template cards against an ingredient catalogue: the C interface of libcapi.a.
 *
 * Every table and buffer is a pointer and a count of numbers (not of rows). Tables are only read.
 * Any content is taken: what is wrong with it is refused, and then every output buffer is as it
 * was before. Every call returns.
 *
 * What the caller sees to:
 * - A pointer is valid for its count: aligned, and behind it lie as many numbers, which may be read,
 *   in an output buffer written too. Where the count is 0 the pointer may be anything, NULL too:
 *   nothing is read or written through it.
 * - An output buffer overlaps nothing else that the call is lent, no other output buffer either; a
 *   held table is one. Tables, filling, settings, told pairs, the list of new ids, lines, the rows of
 *   a given stock and a text may overlap one another.
 * - While a call runs, nothing else writes what it is lent, nor reads its output buffers.
 * - The thread has as much stack left as the operation needs, in bytes at most:
 *     hc_check              8192
 *     hc_atoms              8192
 *     hc_blanks             8192
 *     hc_subsumption_table  32768
 *     hc_subsumed           32768
 *     hc_match              1114112   (512 pairs split one under another; the most measured is 361896)
 *     hc_match_within       1114112   (as hc_match)
 *     hc_match_counted      262144
 *     hc_match_group        1114112   (as hc_match)
 *     hc_match_cards        262144    (as hc_match_counted)
 *     hc_chosen             8192
 *     hc_derive             524288
 *     hc_check_derivation   65536
 *     hc_show               32768
 *     hc_belongs            131072
 *     hc_update_table       65536
 *     hc_renumber           8192
 *     hc_read_owl           8192
 *
 * Calls share no state, so any number of threads may call at once, and no call depends on one
 * before it: the library has constants and no variables that outlive a call (no statics), uses no
 * heap, and calls nothing of the C library but memcpy and memset.
 *
 * entries     three numbers each, (kind, a, b); an entry's id is its place from 0:
 *             (0, 0, 0) top; (1, name, 0); (2, role, id) "some"; (3, id, id) "and";
 *             (4, blank, 0). Inner ids are smaller than the entry's own.
 * inclusions  two ids each: the left is below the right. No blank at any depth.
 * questions   two ids each. Blanks on one side at most.
 * roles       two roles each, narrow and wide: every link of the narrow role counts as a link of
 *             the wide one, through chains and circles of pairs too. Equal, reversed and repeated
 *             pairs are allowed.
 * blanks      the number of blanks.
 *
 * At most 192 entries, 96 inclusions, 32 questions, 32 role pairs, 8 blanks, 64 parts; names to
 * 999, roles to 99.
 *
 * One entry is below another when in every stock that obeys the inclusions and the role pairs all that
 * belongs to the one belongs to the other.
 *
 * The parts come from the ids of kinds 1 and 2 that stand, at any depth, in an inclusion or in a
 * blank-free right side of a question. Entries that are built alike (same kind, same name, role or
 * blank, inner entries alike in the same order) are twins and count once: the part is the lowest
 * twin among all entries, wherever that one stands. Parts are listed in rising order. A filling is
 * one 64-bit number for each blank: bit k chooses the part at position k. The empty choice reads
 * as top. A filling may also be told as pairs, a blank and the id of a part chosen for it, in any
 * order and with repeats: positions shift when an inclusion brings new parts, ids do not.
 *
 * Settings say, for each blank, what it may take: a permitted set of parts, in the same bits as a
 * choice, and a largest count from 0 to 64. A filling is within them when every blank takes
 * permitted parts only, and no more of them than its largest count.
 *
 * A derivation is lines of four numbers: rule, left, right, extra; left and right are entry ids.
 * Premises stand on earlier lines:
 *   1  equal ids, or two name entries of one name; extra 0
 *   2  the right is top; extra 0
 *   3  the left is "and"; its first (extra 0) or second (extra 1) inner id is below the right
 *   4  the right is "and"; the left is below both inner ids; extra 0
 *   5  two "some" entries; the left one's role is the right one's or counts as it; inner below
 *      inner; extra 0
 *   6  extra is an inclusion's place: the left is below its left, and its right below the right
 *   7  the left is a blank; extra is the id of a chosen part that is below the right
 *   8  the right is a blank; the left is below each chosen part; extra 0
 *
 * A stock is a number of things, counted from 0, and rows of four numbers: (0, thing, name, 0)
 * says that the thing bears the name, (1, thing, role, thing) that the first thing is linked by the
 * role to the last. Belonging goes by the kinds of the entries: everything belongs to top; what
 * bears the name belongs to a name; what is linked by the role to something in the inner entry
 * belongs to "some"; what belongs to both belongs to "and"; what belongs to every chosen part
 * belongs to a blank. A stock obeys an inclusion when all that belongs to the left belongs to the
 * right, and a role pair when each link of the narrow role is there under the wide one too.
 *
 * A catalogue in OWL functional syntax is a run of axioms, SubClassOf( class class ), any number of
 * them, none too. A class is
 *   owl:Thing                               top
 *   :cN                                     name N, from 0 to 999
 *   ObjectIntersectionOf( class class ... ) "and" of two or more
 *   ObjectSomeValuesFrom( :rN class )       "some" by role N, from 0 to 99
 * Numbers have no leading zeros except 0 itself. A token is a round bracket, or a longest run of
 * bytes other than round brackets, spaces and line ends (bytes 10 and 13): tab, comma and bytes
 * over 127 belong to words. Spaces and line ends may stand before and after any token. An axiom's
 * sides are 1 deep; what stands in the brackets of a class is one deeper than that class.
 *
 * Order of fillings: look at the pairs (blank, position), blank 0 first and positions rising. At
 * the first pair where two fillings differ, the one that leaves the part out is earlier.
 *
 * Decisions: a partial choice settles the first k pairs of this order, each as left out or taken,
 * for k from 0 to all; pairs of blanks in no question and parts that are not permitted are pairs
 * too. It is open when what it takes is within the settings, all questions without blanks on the
 * right hold with the unsettled permitted parts taken, and all others hold with them left out.
 * Partial choices come in order, a shorter one before its extensions, left out before taken. The
 * count of decisions is the number of open ones up to and including the answer, or of all open ones
 * when no filling within the settings makes every question hold.
 *
 * Groups: questions that share a blank, directly or through others, form a group; those without
 * blanks form one more.
 *
 * Refusals. Checks run in the order 1 to 6, 16, 7, then 9, 19, 21, 22, 15, 8, 11, 10 or 14; 12
 * comes last. Within one check the lowest place wins; 8 takes several buffers in turn. The checks of a
 * given stock, again 1, 2 and 4, come after 9. Of a catalogue's text 8 comes first, then 17 for its
 * length; then the first byte at fault decides between 17, 18 and 1. Of several question tables 20
 * comes before all others.
 *
 *   number  condition                                          place
 *   1       over a count limit, or a ragged table              0 entries, 1 inclusions,
 *                                                              2 questions, 3 blanks, 4 roles
 *           of a stock: no things, over 192, or ragged rows    0
 *           of a catalogue: over 192 entries, met at the last  0
 *           byte of the class that takes them past 192
 *   2       unknown kind, number out of range, unused field    id
 *           not 0
 *           a blank given alone is none (hc_chosen; tested     0
 *           right after 1)
 *           of a stock: a row of another form, or with a       row
 *           thing that the stock lacks
 *   3       inner id not smaller                               id
 *   4       a pair's id is no entry                            inclusions then questions counted
 *                                                              through; a pair given alone 0
 *           an id given alone is no entry, the place of a      0
 *           question given alone is none
 *           of a stock: the asked entry is none; the thing     0; 1
 *           is one that the stock lacks
 *   5       blank in an inclusion                              inclusion
 *   6       blanks on both sides                               question
 *   7       over 64 parts                                      64
 *   8       output buffer too short                            length wanted
 *   9       wrong count of numbers in the filling (tested      count of blanks
 *           first), or a chosen bit past the parts             blank
 *           of told pairs: a ragged list (tested first), or    0
 *           a blank not below the count or an id that is no    pair
 *           part
 *   10      no filling exists; with settings: none that is     0
 *           within them
 *   11      derivation wanted, pair not below                  0
 *   12      no lines or a ragged list; a line breaks its       0; line, from 0; count of lines
 *           rule; the last line is another pair
 *   14      the count of decisions exceeds the allowance       0
 *   15      the pair holds, so there is nothing to show        0
 *   16      a role over 99 in the role pairs                   pair
 *   17      of a catalogue: over 8192 bytes                    8192
 *           any other token or form than the syntax has, or    first byte of the token; the
 *           the text ends too early                            text's length
 *   18      of a catalogue: a class begun over 32 deep         its first byte
 *   19      another number of permitted sets or of largest     count of blanks
 *           counts than blanks (tested first), or a permitted  blank
 *           bit past the parts or a count over 64
 *   20      more than 8 question tables, another number of     8
 *           shares, or lengths that do not add up (tested
 *           first), or a share over 1000000                    table
 *   21      of a list of new ids: a number that is no id or    its place, from 0
 *           stood before, or, tested last, too few numbers     length of the list
 *   22      by a list of new ids an inner id would not be      old id
 *           smaller
 */
#ifndef HERMITCASKET_H
#define HERMITCASKET_H

#include <stddef.h>
#include <stdint.h>

#ifdef __cplusplus
extern "C" {
#endif

/* Limits; what is over one is refused. */
#define HC_MAX_ENTRIES 192
#define HC_MAX_INCLUSIONS 96
#define HC_MAX_QUESTIONS 32
#define HC_MAX_ROLE_PAIRS 32
#define HC_MAX_BLANKS 8
#define HC_MAX_NAME 999
#define HC_MAX_ROLE 99
#define HC_MAX_PARTS 64
#define HC_MAX_COUNT 64         /* of the largest counts in settings */
#define HC_MAX_THINGS 192       /* of a given stock */
#define HC_MAX_CARDS 8          /* question tables of hc_match_cards */
#define HC_MAX_SHARE 1000000    /* decisions that one of them may be given */
#define HC_MAX_TEXT 8192        /* bytes of a catalogue in OWL functional syntax */
#define HC_MAX_DEPTH 32         /* of a class in it */

/* What output buffers want, however little is written: a filling one number a blank, the fillings of
 * several question tables so many for each, renumbered tables as many numbers as the tables; the
 * others this. How many numbers the rows of a stock are depends on the tables: hc_show tells it as
 * the place of refusal 8. */
#define HC_PARTS_ROOM 64                                           /* numbers, hc_atoms */
#define HC_CHOSEN_ROOM 64                                          /* numbers, hc_chosen */
#define HC_ROW_BYTES 24                                            /* bytes of a row of the below table */
#define HC_TABLE_ROOM(entries) (HC_ROW_BYTES * (size_t)(entries))  /* bytes, hc_subsumption_table */
#define HC_LINES_ROOM(entries) (4 * (size_t)(entries) * (entries)) /* numbers, hc_derive */
#define HC_CATALOGUE_ENTRIES 576                                   /* numbers, hc_read_owl */
#define HC_CATALOGUE_INCLUSIONS 192                                /* numbers, hc_read_owl */

/* Bytes of stack with which every call gets by. */
#define HC_STACK 1114112

/* The refusals' numbers, as in the table above. */
enum hc_refusal {
    HC_DONE = 0,
    HC_LIMIT = 1,
    HC_MALFORMED = 2,
    HC_FORWARD_ID = 3,
    HC_NO_ENTRY = 4,
    HC_BLANK_IN_INCLUSION = 5,
    HC_BLANKS_ON_BOTH_SIDES = 6,
    HC_TOO_MANY_PARTS = 7,
    HC_BUFFER_TOO_SHORT = 8,
    HC_BAD_FILLING = 9,
    HC_NO_FILLING = 10,
    HC_NOT_BELOW = 11,
    HC_BAD_DERIVATION = 12,
    HC_BAD_TEXT = 13, /* of house text: the program's, no function gives it */
    HC_ALLOWANCE_SPENT = 14,
    HC_NOTHING_TO_SHOW = 15,
    HC_BAD_ROLE = 16,
    HC_BAD_SYNTAX = 17,
    HC_TOO_DEEP = 18,
    HC_BAD_SETTINGS = 19,
    HC_BAD_CARDS = 20,
    HC_BAD_ORDER = 21,
    HC_FORWARD_IN_ORDER = 22
};

/* number 0: done, and place is 0. Otherwise the refusal, and value is 0, but for hc_match_counted: the
 * count with 10, the allowance with 14. */
typedef struct {
    uint16_t number;
    uint64_t place;
    uint64_t value;
} hc_answer;

/* Of a catalogue that was read. number 0: done, place is 0, and so many entries and inclusions were
 * written. Otherwise the refusal, and both are 0. */
typedef struct {
    uint16_t number;
    uint64_t place;
    uint64_t entries;
    uint64_t inclusions;
} hc_catalogue;

/* Of several question tables. number 0: they were run, and place is 0; otherwise refusal 20, and all
 * else is 0. left: what is left over of the shares at the end. For table k its own number, place and
 * count, as in the answer of hc_match_counted; 0 past the tables. */
typedef struct {
    uint16_t number;
    uint64_t place;
    uint64_t left;
    uint16_t numbers[HC_MAX_CARDS];
    uint64_t places[HC_MAX_CARDS];
    uint32_t counts[HC_MAX_CARDS];
} hc_cards;

/* Checks the tables. value: 0. */
hc_answer hc_check(const uint16_t *entries, size_t entries_len,
                   const uint16_t *inclusions, size_t inclusions_len,
                   const uint16_t *questions, size_t questions_len,
                   const uint16_t *roles, size_t roles_len,
                   uint16_t blanks);

/* Writes the parts' ids, rising, to the front of out, which wants 64 numbers. value: how many. */
hc_answer hc_atoms(const uint16_t *entries, size_t entries_len,
                   const uint16_t *inclusions, size_t inclusions_len,
                   const uint16_t *questions, size_t questions_len,
                   const uint16_t *roles, size_t roles_len,
                   uint16_t blanks,
                   uint16_t *out, size_t out_len);

/* The set of blanks in an entry, at any depth. value: the set, bit k for blank k. An id that is no
 * entry is refusal 4 at place 0. */
hc_answer hc_blanks(const uint16_t *entries, size_t entries_len,
                    const uint16_t *inclusions, size_t inclusions_len,
                    const uint16_t *questions, size_t questions_len,
                    const uint16_t *roles, size_t roles_len,
                    uint16_t blanks,
                    uint16_t id);

/* Writes the below table under a filling: 24 bytes a row, row i at byte i * 24; bit j mod 8 of
 * byte j div 8 (lowest bit first) says that i is below j. Other bits of written rows are 0. out
 * wants entries * 24 bytes; bytes past the last row keep their values. value: the number of yes
 * marks, which are the ones in the written rows. */
hc_answer hc_subsumption_table(const uint16_t *entries, size_t entries_len,
                               const uint16_t *inclusions, size_t inclusions_len,
                               const uint16_t *questions, size_t questions_len,
                               const uint16_t *roles, size_t roles_len,
                               uint16_t blanks,
                               const uint64_t *filling, size_t filling_len,
                               uint8_t *out, size_t out_len);

/* Decides one pair under a filling. value: 1 if left is below right, else 0. The pair may hold
 * blanks on both sides. */
hc_answer hc_subsumed(const uint16_t *entries, size_t entries_len,
                      const uint16_t *inclusions, size_t inclusions_len,
                      const uint16_t *questions, size_t questions_len,
                      const uint16_t *roles, size_t roles_len,
                      uint16_t blanks,
                      const uint64_t *filling, size_t filling_len,
                      uint16_t left, uint16_t right);

/* Finds the first filling that makes every question hold and writes one number a blank to the
 * front of out, which wants as many numbers as there are blanks. Refusal 10 says that no filling
 * does, nor any other replacement of the blanks by blank-free concepts. value: 0. */
hc_answer hc_match(const uint16_t *entries, size_t entries_len,
                   const uint16_t *inclusions, size_t inclusions_len,
                   const uint16_t *questions, size_t questions_len,
                   const uint16_t *roles, size_t roles_len,
                   uint16_t blanks,
                   uint64_t *out, size_t out_len);

/* Finds the first filling, in the order of fillings, of those within the settings that make every
 * question hold, and writes one number a blank to the front of out, which wants as many numbers as
 * there are blanks. permitted and largest have one number a blank each. Refusal 10 says that no
 * filling within the settings does; others, and other replacements, may. With all parts permitted
 * and 64 everywhere this is hc_match. value: 0. */
hc_answer hc_match_within(const uint16_t *entries, size_t entries_len,
                          const uint16_t *inclusions, size_t inclusions_len,
                          const uint16_t *questions, size_t questions_len,
                          const uint16_t *roles, size_t roles_len,
                          uint16_t blanks,
                          const uint64_t *permitted, size_t permitted_len,
                          const uint16_t *largest, size_t largest_len,
                          uint64_t *out, size_t out_len);

/* hc_match_within on an allowance of decisions, which are counted. Where the count is no more than
 * the allowance, the answer and what is written are those of hc_match_within, so a larger allowance
 * never alters a filling or a 10. Where it is more, refusal 14 says so, and nothing is written. A
 * card with nothing to decide has count 1; where nothing can fill it from the start the count is 0,
 * and the answer is 10 on an allowance of 0 too. value: the count, with number 0 and with refusal 10;
 * the allowance with refusal 14; 0 with any other. */
hc_answer hc_match_counted(const uint16_t *entries, size_t entries_len,
                           const uint16_t *inclusions, size_t inclusions_len,
                           const uint16_t *questions, size_t questions_len,
                           const uint16_t *roles, size_t roles_len,
                           uint16_t blanks,
                           const uint64_t *permitted, size_t permitted_len,
                           const uint16_t *largest, size_t largest_len,
                           uint32_t allowance,
                           uint64_t *out, size_t out_len);

/* The first filling within the settings of one group of questions: that of the question at the given
 * place, from 0. The parts are those of the whole problem, and so are the checks of settings and of
 * out, which wants as many numbers as blanks; blanks outside the group stay 0. Refusal 10 says that
 * no filling within the settings makes the group's questions hold and, with all parts permitted and
 * 64 everywhere, that no replacement does. A place that is no question is refusal 4, place 0. The
 * groups' fillings put together, bit by bit, are the filling of hc_match_within, which has none
 * exactly when some group has none. value: 0. */
hc_answer hc_match_group(const uint16_t *entries, size_t entries_len,
                         const uint16_t *inclusions, size_t inclusions_len,
                         const uint16_t *questions, size_t questions_len,
                         const uint16_t *roles, size_t roles_len,
                         uint16_t blanks,
                         const uint64_t *permitted, size_t permitted_len,
                         const uint16_t *largest, size_t largest_len,
                         uint16_t question,
                         uint64_t *out, size_t out_len);

/* Up to eight question tables over one catalogue, one after another: questions has all of them, and
 * lengths says how many numbers each has. All parts are permitted, and 64 everywhere; the parts are
 * each table's own. Table k has the stretch of out from k times the number of blanks on, a number a
 * blank, as far as that reaches, and may use its share of decisions and what the tables before it
 * left over. Its answer is that of hc_match_counted with that amount on that stretch: a table whose
 * stretch is too short is refused with 8, a faulty catalogue once for each table. A table refused for
 * anything but 10 or 14 uses nothing. The sum of counts and left is the sum of the shares. */
hc_cards hc_match_cards(const uint16_t *entries, size_t entries_len,
                        const uint16_t *inclusions, size_t inclusions_len,
                        const uint16_t *questions, size_t questions_len,
                        const uint16_t *roles, size_t roles_len,
                        uint16_t blanks,
                        const uint16_t *lengths, size_t lengths_len,
                        const uint32_t *shares, size_t shares_len,
                        uint64_t *out, size_t out_len);

/* Writes the ids chosen for one blank, rising, to the front of out, which wants 64 numbers. A
 * blank number not below the count is refusal 2, place 0. value: how many, the number of ones in
 * the blank's choice. */
hc_answer hc_chosen(const uint16_t *entries, size_t entries_len,
                    const uint16_t *inclusions, size_t inclusions_len,
                    const uint16_t *questions, size_t questions_len,
                    const uint16_t *roles, size_t roles_len,
                    uint16_t blanks,
                    const uint64_t *filling, size_t filling_len,
                    uint16_t blank, uint16_t *out, size_t out_len);

/* Writes a derivation of one pair under a filling to the front of out: lines that
 * hc_check_derivation accepts, no pair twice, the asked pair last. Which lines is left open. out
 * wants 4 * entries * entries numbers; numbers past the lines keep their values. Refusal 11 says
 * that left is not below right. value: how many lines. */
hc_answer hc_derive(const uint16_t *entries, size_t entries_len,
                    const uint16_t *inclusions, size_t inclusions_len,
                    const uint16_t *questions, size_t questions_len,
                    const uint16_t *roles, size_t roles_len,
                    uint16_t blanks,
                    const uint64_t *filling, size_t filling_len,
                    uint16_t left, uint16_t right, uint16_t *out, size_t out_len);

/* Checks a derivation of one pair under a filling; lines_len counts numbers, four a line. Number 0
 * says that every line follows from earlier ones and that the last is the asked pair. value: 0. */
hc_answer hc_check_derivation(const uint16_t *entries, size_t entries_len,
                              const uint16_t *inclusions, size_t inclusions_len,
                              const uint16_t *questions, size_t questions_len,
                              const uint16_t *roles, size_t roles_len,
                              uint16_t blanks,
                              const uint64_t *filling, size_t filling_len,
                              uint16_t left, uint16_t right,
                              const uint16_t *lines, size_t lines_len);

/* Shows a stock where the pair fails under a filling: it obeys all inclusions and role pairs, and
 * the thing to look at, which is the left id, belongs to the left and not to the right. There are
 * as many things as entries, and thing i stands for entry i: it bears the name of a name entry when
 * i is below that entry, and is linked by the role of a "some" entry, and by every wider one, to
 * that entry's inner thing when i is below it. Its rows, first of names and then of links, rising
 * and free of repeats, go to the front of rows, which wants four numbers a row; numbers past them
 * keep their values. Refusal 15 says that left is below right. Refusal 8 gives the length wanted,
 * so a call without room (NULL, 0) asks for it. value: how many rows. */
hc_answer hc_show(const uint16_t *entries, size_t entries_len,
                  const uint16_t *inclusions, size_t inclusions_len,
                  const uint16_t *questions, size_t questions_len,
                  const uint16_t *roles, size_t roles_len,
                  uint16_t blanks,
                  const uint64_t *filling, size_t filling_len,
                  uint16_t left, uint16_t right, uint16_t *rows, size_t rows_len);

/* Says whether a thing of a given stock belongs to an entry under a filling. The stock has from 1
 * to 192 things and any number of rows, in any order and with repeats; rows_len counts numbers,
 * four a row. Names and roles in it are any numbers. Nothing but its rows is read as a link: the
 * stock need not obey inclusions nor role pairs. value: 1 if the thing belongs to the entry, else
 * 0. */
hc_answer hc_belongs(const uint16_t *entries, size_t entries_len,
                     const uint16_t *inclusions, size_t inclusions_len,
                     const uint16_t *questions, size_t questions_len,
                     const uint16_t *roles, size_t roles_len,
                     uint16_t blanks,
                     const uint64_t *filling, size_t filling_len,
                     uint16_t things, const uint16_t *rows, size_t rows_len,
                     uint16_t entry, uint16_t thing);

/* Brings a held below table up to date after inclusions were added: it becomes the smallest one
 * that holds its own marks and is closed under the eight rules, read as steps from marks to a mark,
 * under the filling told as pairs; told_len counts numbers, two a pair. If it was right with the
 * older inclusions, all else the same, it is then exactly the table that hc_subsumption_table makes
 * afresh under the same chosen ids. Any other content is closed likewise: no mark is cleared, so a
 * wrong one stays, with all that follows from it by the rules. Only rows and columns of entries are
 * read and marked; bits past the last column and bytes past the last row keep their values. table
 * wants entries * 24 bytes. value: 0. */
hc_answer hc_update_table(const uint16_t *entries, size_t entries_len,
                          const uint16_t *inclusions, size_t inclusions_len,
                          const uint16_t *questions, size_t questions_len,
                          const uint16_t *roles, size_t roles_len,
                          uint16_t blanks,
                          const uint16_t *told, size_t told_len,
                          uint8_t *table, size_t table_len);

/* Gives each entry a new id: order[i] is that of entry i, and order has every id once. The entries
 * in their new order, the inclusions and the questions go to the front of their own output buffers,
 * with every id in them replaced by its new one. Names, roles and numbers of blanks are no ids; the
 * role pairs are the same before and after. Each buffer wants as many numbers as its table has;
 * numbers past them keep their values. Refusal 22 says that an inner id would not be smaller than
 * the entry's own. The written tables are accepted. The list that leads back from new ids to old
 * ones restores the tables exactly, and one list after another does what the composed one does.
 * Where the same concepts are chosen, the below table is the old one with rows and columns moved;
 * positions of parts, and which twin is the lowest, may be others. There is a filling exactly when
 * there was one; which is first may differ. value: 0. */
hc_answer hc_renumber(const uint16_t *entries, size_t entries_len,
                      const uint16_t *inclusions, size_t inclusions_len,
                      const uint16_t *questions, size_t questions_len,
                      const uint16_t *roles, size_t roles_len,
                      uint16_t blanks,
                      const uint16_t *order, size_t order_len,
                      uint16_t *entries_out, size_t entries_out_len,
                      uint16_t *inclusions_out, size_t inclusions_out_len,
                      uint16_t *questions_out, size_t questions_out_len);

/* Reads a catalogue in OWL functional syntax: text_len bytes, without a closing byte 0. Each
 * occurrence of a class becomes entries in the order in which it closes, a name and top where they
 * are read; an intersection is paired from the left at its closing bracket, one "and" for each
 * member after the first. Each axiom becomes an inclusion of its sides. There are no blanks, no
 * questions and no role pairs. entries wants 576 numbers and inclusions 192, however few are
 * written; past three for each entry and two for each inclusion they keep their values. The
 * accepted texts are exactly those of the syntax above within the limits of 17, 18 and 1, and the
 * tables mean what the text says. hc_check accepts them, but for more than 64 parts (7), which is
 * not tested here. */
hc_catalogue hc_read_owl(const uint8_t *text, size_t text_len,
                         uint16_t *entries, size_t entries_len,
                         uint16_t *inclusions, size_t inclusions_len);

#ifdef __cplusplus
}
#endif

#endif
