/* 01's sample problem, and NULL where a count is 0, through the header, as C and as C++;
 * tests/tests/header.rs compares what this prints. */
#include <hermitcasket.h>
#include <stdio.h>
#include <string.h>

static const uint16_t entries[] = {1, 5, 0, 1, 7, 0, 2, 1, 0, 1, 9, 0, 4, 0, 0, 3, 1, 4};
static const uint16_t inclusions[] = {2, 3};
static const uint16_t questions[] = {5, 3, 2, 4};
static const uint16_t roles[] = {1, 2, 3, 99};
static const uint64_t filling[] = {4};

#define LEN(list) (sizeof(list) / sizeof((list)[0]))
#define TABLES \
    entries, LEN(entries), inclusions, LEN(inclusions), questions, LEN(questions), roles, LEN(roles), 1
#define NOTHING NULL, 0, NULL, 0, NULL, 0, NULL, 0, 0

static void show(const char *name, hc_answer answer)
{
    printf("%s %u %llu %llu\n", name, (unsigned)answer.number,
           (unsigned long long)answer.place, (unsigned long long)answer.value);
}

static void show_read(const char *name, hc_catalogue read)
{
    printf("%s %u %llu %llu %llu\n", name, (unsigned)read.number, (unsigned long long)read.place,
           (unsigned long long)read.entries, (unsigned long long)read.inclusions);
}

static void show_cards(const char *name, hc_cards cards)
{
    int k;

    printf("%s %u %llu %llu\n", name, (unsigned)cards.number, (unsigned long long)cards.place,
           (unsigned long long)cards.left);
    for (k = 0; k < 8; k++)
        if (cards.numbers[k] || cards.places[k] || cards.counts[k])
            printf("card %d: %u %llu %lu\n", k, (unsigned)cards.numbers[k],
                   (unsigned long long)cards.places[k], (unsigned long)cards.counts[k]);
}

/* Every operation with NULL for each list, and for one list alone beside lists that are there. */
static void nulls(void)
{
    uint16_t ids[64] = {0};
    uint16_t lines[4];
    uint8_t table[6 * 24] = {0};

    show("no tables", hc_check(NOTHING));
    show("no tables, no room", hc_atoms(NOTHING, NULL, 0));
    show("no tables, no part", hc_atoms(NOTHING, ids, LEN(ids)));
    show("no entry to look at", hc_blanks(NOTHING, 0));
    show("no rows", hc_subsumption_table(NOTHING, NULL, 0, NULL, 0));
    show("no entry", hc_subsumed(NOTHING, NULL, 0, 0, 0));
    show("nothing to fill", hc_match(NOTHING, NULL, 0));
    show("nothing to permit", hc_match_within(NOTHING, NULL, 0, NULL, 0, NULL, 0));
    show("nothing to decide", hc_match_counted(NOTHING, NULL, 0, NULL, 0, 1, NULL, 0));
    show("no question", hc_match_group(NOTHING, NULL, 0, NULL, 0, 0, NULL, 0));
    show_cards("no cards", hc_match_cards(NOTHING, NULL, 0, NULL, 0, NULL, 0));
    show("no blank", hc_chosen(NOTHING, NULL, 0, 0, NULL, 0));
    show("nothing to derive", hc_derive(NOTHING, NULL, 0, 0, 0, NULL, 0));
    show("nothing to check", hc_check_derivation(NOTHING, NULL, 0, 0, 0, NULL, 0));
    show("nothing to show", hc_show(NOTHING, NULL, 0, 0, 0, NULL, 0));
    show("no things", hc_belongs(NOTHING, NULL, 0, 0, NULL, 0, 0, 0));
    show("no entry to belong to", hc_belongs(NOTHING, NULL, 0, 1, NULL, 0, 0, 0));
    show("no table to keep", hc_update_table(NOTHING, NULL, 0, NULL, 0));
    show("nothing to renumber", hc_renumber(NOTHING, NULL, 0, NULL, 0, NULL, 0, NULL, 0));

    show_read("no text, no room", hc_read_owl(NULL, 0, NULL, 0, NULL, 0));

    show("no catalogue", hc_match(entries, LEN(entries), NULL, 0, questions, LEN(questions),
                                  roles, LEN(roles), 1, NULL, 0));
    show("no questions", hc_check(entries, LEN(entries), inclusions, LEN(inclusions), NULL, 0,
                                  roles, LEN(roles), 1));
    show("no entries", hc_check(NULL, 0, inclusions, LEN(inclusions), questions, LEN(questions),
                                roles, LEN(roles), 1));
    show("no roles", hc_check(entries, LEN(entries), inclusions, LEN(inclusions), questions,
                              LEN(questions), NULL, 0, 1));
    show("no filling", hc_subsumed(TABLES, NULL, 0, 5, 3));
    show("filling of none", hc_subsumed(entries, 3, NULL, 0, NULL, 0, NULL, 0, 0, NULL, 0, 0, 0));
    show("derived", hc_derive(entries, 3, NULL, 0, NULL, 0, NULL, 0, 0, NULL, 0, 0, 0, lines,
                              LEN(lines)));
    show("no room for parts", hc_atoms(TABLES, NULL, 0));
    show("no room for rows", hc_subsumption_table(TABLES, filling, LEN(filling), NULL, 0));
    show("no room to fill", hc_match(TABLES, NULL, 0));
    show("no settings", hc_match_within(TABLES, NULL, 0, NULL, 0, NULL, 0));
    show("no counts", hc_match_within(TABLES, filling, 1, NULL, 0, NULL, 0));
    show("no settings to count in", hc_match_counted(TABLES, NULL, 0, NULL, 0, 4, NULL, 0));
    show("no settings of a group", hc_match_group(TABLES, NULL, 0, NULL, 0, 1, NULL, 0));
    show_cards("no lengths", hc_match_cards(TABLES, NULL, 0, NULL, 0, NULL, 0));
    show("no room for ids", hc_chosen(TABLES, filling, LEN(filling), 0, NULL, 0));
    show("no room for lines", hc_derive(TABLES, filling, LEN(filling), 2, 3, NULL, 0));
    show("no list of lines", hc_check_derivation(TABLES, filling, LEN(filling), 2, 3, NULL, 0));
    show("no room for a stock", hc_show(TABLES, filling, LEN(filling), 3, 2, NULL, 0));
    show("no filling to show by", hc_show(TABLES, NULL, 0, 3, 2, NULL, 0));
    show("bare things", hc_belongs(TABLES, filling, LEN(filling), 2, NULL, 0, 3, 1));
    show("no table held", hc_update_table(TABLES, NULL, 0, NULL, 0));
    show("nothing told", hc_update_table(TABLES, NULL, 0, table, LEN(table)));
    show("no list of ids", hc_renumber(TABLES, NULL, 0, NULL, 0, NULL, 0, NULL, 0));
    show("no pairs to file", hc_renumber(entries, 3, NULL, 0, NULL, 0, roles, LEN(roles), 1, ids, 1,
                                         lines, 3, NULL, 0, NULL, 0));
}

/* "Some" of one name by roles 1 and 2, and by 3: 1 counts as 2, which counts as 3. */
static void role_pairs(void)
{
    static const uint16_t some[] = {1, 5, 0, 2, 1, 0, 2, 2, 0, 2, 3, 0};
    static const uint16_t chain[] = {2, 3, 1, 2};
    static const uint16_t high[] = {2, 3, 1, 100};
    static const uint16_t many[66] = {0};
    static const uint16_t narrow_left[] = {1, 0, 0, 0, 5, 1, 3, 0};
    static const uint16_t wide_left[] = {1, 0, 0, 0, 5, 3, 1, 0};

#define SOME some, LEN(some), NULL, 0, NULL, 0
    show("narrow below wide", hc_subsumed(SOME, chain, LEN(chain), 0, NULL, 0, 1, 3));
    show("wide below narrow", hc_subsumed(SOME, chain, LEN(chain), 0, NULL, 0, 3, 1));
    show("no pairs", hc_subsumed(SOME, NULL, 0, 0, NULL, 0, 1, 3));
    show("rule 5", hc_check_derivation(SOME, chain, LEN(chain), 0, NULL, 0, 1, 3, narrow_left, 8));
    show("turned", hc_check_derivation(SOME, chain, LEN(chain), 0, NULL, 0, 3, 1, wide_left, 8));
    show("role 100", hc_check(SOME, high, LEN(high), 0));
    show("ragged pairs", hc_check(SOME, chain, LEN(chain) - 1, 0));
    show("32 pairs", hc_check(SOME, many, 64, 0));
    show("33 pairs", hc_check(SOME, many, 66, 0));
}

/* A stock where 3 is not below 2, each row on a line, and belonging in it and in another one. */
static void stocks(void)
{
    static const uint16_t given[] = {1, 0, 65535, 0, 0, 1, 9, 0, 1, 0, 1, 1, 1, 0, 1, 1,
                                     0, 0, 5, 0};
    uint16_t rows[64] = {0};
    hc_answer shown = hc_show(TABLES, filling, LEN(filling), 3, 2, rows, LEN(rows));

    show("shown", shown);
    for (size_t row = 0; row < shown.value; row++)
        printf("row %u %u %u %u\n", (unsigned)rows[4 * row], (unsigned)rows[4 * row + 1],
               (unsigned)rows[4 * row + 2], (unsigned)rows[4 * row + 3]);
#define SHOWN filling, LEN(filling), 6, rows, 4 * (size_t)shown.value
    show("of the left", hc_belongs(TABLES, SHOWN, 3, 3));
    show("not of the right", hc_belongs(TABLES, SHOWN, 2, 3));
    show("holds", hc_show(TABLES, filling, LEN(filling), 2, 3, rows, LEN(rows)));
    show("one number short", hc_show(TABLES, filling, LEN(filling), 3, 2, rows, 35));
    show("no pair", hc_show(TABLES, filling, LEN(filling), 3, 6, rows, LEN(rows)));
#define GIVEN filling, LEN(filling), 2, given, LEN(given)
    show("bears the name", hc_belongs(TABLES, GIVEN, 0, 0));
    show("bears another", hc_belongs(TABLES, GIVEN, 0, 1));
    show("filled with nothing of it", hc_belongs(TABLES, GIVEN, 2, 0));
    show("of the blank", hc_belongs(TABLES, GIVEN, 4, 1));
    show("no such entry in it", hc_belongs(TABLES, GIVEN, 6, 2));
    show("no such thing in it", hc_belongs(TABLES, GIVEN, 5, 2));
    show("ragged rows", hc_belongs(TABLES, filling, LEN(filling), 2, given, LEN(given) - 1, 6, 2));
    show("a row too far", hc_belongs(TABLES, filling, LEN(filling), 1, given, LEN(given), 6, 2));
    show("193 things", hc_belongs(TABLES, filling, LEN(filling), 193, given, LEN(given), 0, 0));
    show("filling first", hc_belongs(TABLES, filling, 0, 193, given, LEN(given), 0, 0));
}

/* The sample's blank, whose parts are 0, 2 and 3, with other parts barred and fewer of them. */
static void settings(void)
{
    static const uint64_t all[] = {7, 7}, two[] = {3}, one[] = {1}, past[] = {8};
    static const uint16_t any[] = {64, 64}, single[] = {1}, nothing[] = {0}, over[] = {65};
    uint64_t found[] = {77, 77};

#define WITHIN(permitted, largest) hc_match_within(TABLES, permitted, 1, largest, 1, found, 2)
    show("all permitted", WITHIN(all, any));
    printf("found %llu %llu\n", (unsigned long long)found[0], (unsigned long long)found[1]);
    show("the last barred", WITHIN(two, single));
    printf("found %llu %llu\n", (unsigned long long)found[0], (unsigned long long)found[1]);
    show("both barred", WITHIN(one, any));
    show("at most none", WITHIN(all, nothing));
    show("past the parts", WITHIN(past, any));
    show("over 64", WITHIN(all, over));
    show("two sets", hc_match_within(TABLES, all, 2, any, 1, found, 2));
    show("two counts", hc_match_within(TABLES, past, 1, any, 2, found, 0));
    show("settings first", hc_match_within(TABLES, past, 1, any, 1, found, 0));
    show("room then", hc_match_within(TABLES, one, 1, any, 1, found, 0));
    printf("found %llu %llu\n", (unsigned long long)found[0], (unsigned long long)found[1]);
}

/* Decisions on the sample: four up to its filling. */
static void decisions(void)
{
    static const uint64_t all[] = {7, 7}, one[] = {1}, past[] = {8};
    static const uint16_t any[] = {64, 64}, nothing[] = {0};
    uint64_t found[] = {77, 77};

#define COUNTED(permitted, largest, allowance) \
    hc_match_counted(TABLES, permitted, 1, largest, 1, allowance, found, 2)
    show("none allowed", COUNTED(all, any, 0));
    show("three allowed", COUNTED(all, any, 3));
    printf("found %llu %llu\n", (unsigned long long)found[0], (unsigned long long)found[1]);
    show("four allowed", COUNTED(all, any, 4));
    printf("found %llu %llu\n", (unsigned long long)found[0], (unsigned long long)found[1]);
    show("the most allowed", COUNTED(all, any, UINT32_MAX));
    show("three, and none fills", COUNTED(all, nothing, 3));
    show("two of the three", COUNTED(all, nothing, 2));
    show("shut at once", COUNTED(one, any, 0));
    show("settings before", COUNTED(past, any, 0));
    show("two counts before", hc_match_counted(TABLES, all, 1, any, 2, 0, found, 0));
    show("room before", hc_match_counted(TABLES, all, 1, any, 1, 0, found, 0));
    printf("found %llu %llu\n", (unsigned long long)found[0], (unsigned long long)found[1]);
}

/* The sample's two questions share its blank; a third, and one without blanks, are groups by themselves. */
static void groups(void)
{
    static const uint16_t rows[] = {1,5,0, 1,7,0, 2,1,0, 1,9,0, 4,0,0, 3,1,4, 4,1,0};
    static const uint16_t asked[] = {5,3, 6,1, 2,4, 0,1};
    static const uint64_t all[] = {15, 15}, past[] = {15, 16};
    static const uint16_t any[] = {64, 64};
    uint64_t found[] = {77, 77, 77};
    uint16_t question;

    for (question = 0; question < 5; question++) {
        show("group", hc_match_group(rows, LEN(rows), inclusions, LEN(inclusions), asked, LEN(asked),
                                     NULL, 0, 2, all, 2, any, 2, question, found, 3));
        printf("found %llu %llu %llu\n", (unsigned long long)found[0],
               (unsigned long long)found[1], (unsigned long long)found[2]);
    }
    show("settings outside it", hc_match_group(rows, LEN(rows), inclusions, LEN(inclusions), asked,
                                               LEN(asked), NULL, 0, 2, past, 2, any, 2, 0, found, 3));
    show("room outside it", hc_match_group(rows, LEN(rows), inclusions, LEN(inclusions), asked,
                                           LEN(asked), NULL, 0, 2, all, 2, any, 2, 0, found, 1));
}

/* The sample's questions three times, the second time with one too many, on shares and what is left. */
static void cards(void)
{
    static const uint16_t all[] = {5,3, 2,4, 5,3, 4,4, 5,3, 2,4, 5,3};
    static const uint16_t lengths[] = {4, 4, 4, 2};
    static const uint32_t shares[] = {6, 1, 1, 0}, over[] = {6, 1, 1000001, 0};
    uint64_t found[] = {77, 77, 77, 77, 77};
    int k;

#define CARDS(lengths_len, shares, out_len) \
    hc_match_cards(entries, LEN(entries), inclusions, LEN(inclusions), all, LEN(all), NULL, 0, 1, \
                   lengths, lengths_len, shares, LEN(shares), found, out_len)
    show_cards("four cards", CARDS(4, shares, 5));
    for (k = 0; k < 5; k++)
        printf("found %llu\n", (unsigned long long)found[k]);
    show_cards("three of them", CARDS(3, shares, 5));
    show_cards("a large share", CARDS(4, over, 5));
    show_cards("room for two", CARDS(4, shares, 2));
}

/* The sample's table without an inclusion, where 3 is the only part, and then with one and two. */
static void shift(void)
{
    static const uint64_t alone[] = {1};
    static const uint16_t more[] = {2, 3, 0, 3};
    static const uint16_t told[] = {0, 3, 0, 3};
    static const uint16_t no_part[] = {0, 3, 0, 1};
    static const uint16_t no_blank[] = {0, 3, 1, 3};
    uint8_t table[6 * 24 + 1] = {0};

#define MORE entries, LEN(entries), more, LEN(more), questions, LEN(questions), roles, LEN(roles), 1
    show("before", hc_subsumption_table(entries, LEN(entries), NULL, 0, questions, LEN(questions),
                                        roles, LEN(roles), 1, alone, LEN(alone), table, 6 * 24));
    table[1] = 128;
    table[6 * 24] = 77;
    show("one inclusion", hc_update_table(TABLES, told, LEN(told), table, sizeof table));
    show("two inclusions", hc_update_table(MORE, told, LEN(told), table, sizeof table));
    show("ragged list", hc_update_table(MORE, no_part, 3, table, 0));
    show("no part told", hc_update_table(MORE, no_part, LEN(no_part), table, 0));
    show("no blank told", hc_update_table(MORE, no_blank, LEN(no_blank), table, 0));
    show("one byte short", hc_update_table(MORE, told, LEN(told), table, 6 * 24 - 1));
    for (int row = 0; row < 6; row++)
        printf("row %d %d\n", table[24 * row], table[24 * row + 1]);
    printf("past %d\n", table[6 * 24]);
}

/* The sample with its parts first, its entries and pairs on lines, and what is refused. */
static void filing(void)
{
    static const uint16_t order[] = {0, 3, 1, 2, 4, 5};
    static const uint16_t again[] = {0, 3, 1, 3, 4, 6};
    static const uint16_t later[] = {1, 3, 0, 2, 4, 5};
    uint16_t filed[19] = {0}, pairs[3] = {0}, asked[5] = {0};

#define FILED filed, LEN(filed), pairs, LEN(pairs), asked, LEN(asked)
    filed[18] = pairs[2] = asked[4] = 77;
    show("filed", hc_renumber(TABLES, order, LEN(order), FILED));
    show("stood before", hc_renumber(TABLES, again, LEN(again), FILED));
    show("too short a list", hc_renumber(TABLES, order, LEN(order) - 1, FILED));
    show("inner id later", hc_renumber(TABLES, later, LEN(later), FILED));
    show("entries too long", hc_renumber(TABLES, order, LEN(order), filed, 17, pairs, 1, asked, 3));
    show("inclusions too", hc_renumber(TABLES, order, LEN(order), filed, 18, pairs, 1, asked, 3));
    show("questions too", hc_renumber(TABLES, order, LEN(order), filed, 18, pairs, 2, asked, 3));
    for (size_t entry = 0; entry < 6; entry++)
        printf("entry %u %u %u\n", (unsigned)filed[3 * entry], (unsigned)filed[3 * entry + 1],
               (unsigned)filed[3 * entry + 2]);
    printf("pairs %u %u, %u %u, %u %u\n", (unsigned)pairs[0], (unsigned)pairs[1],
           (unsigned)asked[0], (unsigned)asked[1], (unsigned)asked[2], (unsigned)asked[3]);
    printf("past %u %u %u\n", (unsigned)filed[18], (unsigned)pairs[2], (unsigned)asked[4]);
}

/* A supplier's catalogue, its entries and pairs on lines, and what is refused. */
static void supplier(void)
{
    static const char text[] = "SubClassOf(:c5 ObjectSomeValuesFrom(:r1 :c7))\r\n"
                               "SubClassOf( ObjectIntersectionOf(:c5 owl:Thing :c9) :c7 )\n";
    uint16_t rows[577] = {0}, pairs[193] = {0};
    hc_catalogue read;

#define READ(text, length) \
    hc_read_owl((const uint8_t *)(text), length, rows, LEN(rows), pairs, LEN(pairs))
    rows[27] = rows[576] = pairs[4] = pairs[192] = 77;
    read = READ(text, strlen(text));
    show_read("read", read);
    show_read("no text", READ(NULL, 0));
    show_read("byte 0", READ(text, sizeof text));
    show_read("cut off", READ(text, strlen(text) - 2));
    show_read("one name", READ("SubClassOf(:c5)", 15));
    show_read("leading zero", READ("SubClassOf(:c5 :c05)", 20));
    show_read("no room for entries", hc_read_owl(NULL, 0, rows, 575, pairs, 191));
    show_read("no room for pairs", hc_read_owl(NULL, 0, rows, 576, pairs, 191));
    for (size_t entry = 0; entry < read.entries; entry++)
        printf("entry %u %u %u\n", (unsigned)rows[3 * entry], (unsigned)rows[3 * entry + 1],
               (unsigned)rows[3 * entry + 2]);
    printf("pairs %u %u, %u %u\n", (unsigned)pairs[0], (unsigned)pairs[1], (unsigned)pairs[2],
           (unsigned)pairs[3]);
    printf("past %u %u %u %u\n", (unsigned)rows[27], (unsigned)rows[576], (unsigned)pairs[4],
           (unsigned)pairs[192]);
    show("checked", hc_check(rows, 3 * (size_t)read.entries, pairs, 2 * (size_t)read.inclusions,
                             NULL, 0, NULL, 0, 0));
}

int main(void)
{
    uint16_t atoms[64] = {0};
    uint8_t table[6 * 24] = {0};
    uint64_t found[1] = {0};
    uint16_t chosen[64] = {0};
    uint16_t lines[4 * 6 * 6] = {0};

    printf("answer %zu %zu %zu\n", sizeof(hc_answer), offsetof(hc_answer, place),
           offsetof(hc_answer, value));
    printf("catalogue %zu %zu %zu %zu\n", sizeof(hc_catalogue), offsetof(hc_catalogue, place),
           offsetof(hc_catalogue, entries), offsetof(hc_catalogue, inclusions));
    show("check", hc_check(TABLES));
    show("atoms", hc_atoms(TABLES, atoms, LEN(atoms)));
    printf("ids %u %u %u\n", (unsigned)atoms[0], (unsigned)atoms[1], (unsigned)atoms[2]);
    show("blanks", hc_blanks(TABLES, 5));
    show("no such entry", hc_blanks(TABLES, 6));
    show("table", hc_subsumption_table(TABLES, filling, LEN(filling), table, sizeof table));
    for (int row = 0; row < 6; row++)
        printf("row %d\n", table[24 * row]);
    show("yes", hc_subsumed(TABLES, filling, LEN(filling), 5, 3));
    show("no", hc_subsumed(TABLES, filling, LEN(filling), 3, 2));
    show("short", hc_subsumption_table(TABLES, filling, LEN(filling), table, sizeof table - 1));
    show("count", hc_subsumed(TABLES, filling, 0, 5, 3));
    show("pair", hc_subsumed(TABLES, filling, LEN(filling), 5, 6));
    show("ragged", hc_check(entries, LEN(entries) - 1, inclusions, 2, questions, 4, roles, 4, 1));
    show("match", hc_match(TABLES, found, LEN(found)));
    printf("found %llu\n", (unsigned long long)found[0]);
    show("chosen", hc_chosen(TABLES, filling, LEN(filling), 0, chosen, LEN(chosen)));
    printf("part %u\n", (unsigned)chosen[0]);
    hc_answer derived = hc_derive(TABLES, filling, LEN(filling), 2, 3, lines, LEN(lines));
    printf("derive %u\n", (unsigned)derived.number); /* how many lines is left open */
    show("checked", hc_check_derivation(TABLES, filling, LEN(filling), 2, 3, lines,
                                        4 * (size_t)derived.value));
    show("not below", hc_derive(TABLES, filling, LEN(filling), 3, 2, lines, LEN(lines)));
    show("no lines", hc_check_derivation(TABLES, filling, LEN(filling), 2, 3, lines, 0));
    role_pairs();
    settings();
    decisions();
    groups();
    cards();
    stocks();
    shift();
    filing();
    supplier();
    nulls();
    return 0;
}
