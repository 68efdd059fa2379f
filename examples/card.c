/* The card of examples/sample.txt through the C interface: a filling and what it chooses, why a yes holds, and
 * a stock where a no fails. rust/examples/card.rs is the same in Rust, and prints the same lines.
 *
 *     (cd crates/capi && rt lib)
 *     cc -Iinclude examples/card.c crates/capi/out/libcapi.a -o card && ./card
 */
#include <hermitcasket.h>
#include <stdio.h>
#include <stdlib.h>

#define LEN(list) (sizeof(list) / sizeof((list)[0]))
#define ENTRIES 6

/* 0 brioche, 1 butter, 2 filled with brioche, 3 pastry, 4 the blank, 5 butter and the blank */
static const uint16_t entries[3 * ENTRIES] = {1, 5, 0, 1, 7, 0, 2, 1, 0, 1, 9, 0, 4, 0, 0, 3, 1, 4};
static const uint16_t inclusions[] = {2, 3};
static const uint16_t questions[] = {5, 3, 2, 4};

/* the four tables, the last one empty, and the number of blanks */
#define TABLES \
    entries, LEN(entries), inclusions, LEN(inclusions), questions, LEN(questions), NULL, 0, 1

static int is_refused(const char *what, hc_answer answer)
{
    if (answer.number != HC_DONE)
        printf("%s: refusal %u at %llu\n", what, (unsigned)answer.number,
               (unsigned long long)answer.place);
    return answer.number != HC_DONE;
}

static int print_chosen(const uint64_t *filling)
{
    uint16_t ids[HC_CHOSEN_ROOM];
    hc_answer answer = hc_chosen(TABLES, filling, 1, 0, ids, LEN(ids));
    uint64_t k;

    if (is_refused("chosen", answer))
        return 2;
    printf("blank 0:");
    for (k = 0; k < answer.value; k++)
        printf(" %u", (unsigned)ids[k]);
    printf("\n");
    return 0;
}

/* why 5 is below 3 */
static int print_derivation(const uint64_t *filling)
{
    uint16_t lines[HC_LINES_ROOM(ENTRIES)];
    hc_answer answer = hc_derive(TABLES, filling, 1, 5, 3, lines, LEN(lines));
    uint64_t k;

    if (is_refused("derivation", answer))
        return 2;
    for (k = 0; k < answer.value; k++) {
        const uint16_t *line = lines + 4 * k;
        printf("rule %u: %u is below %u (%u)\n", (unsigned)line[0], (unsigned)line[1],
               (unsigned)line[2], (unsigned)line[3]);
    }
    return 0;
}

/* where 3 is not below 2; a call without room tells how much is wanted */
static int print_stock(const uint64_t *filling)
{
    hc_answer answer = hc_show(TABLES, filling, 1, 3, 2, NULL, 0);
    size_t wanted = answer.number == HC_BUFFER_TOO_SHORT ? (size_t)answer.place : 0;
    uint16_t *rows = (uint16_t *)malloc(wanted * sizeof(uint16_t));
    uint64_t k;

    if (wanted != 0 && rows == NULL)
        return 3;
    answer = hc_show(TABLES, filling, 1, 3, 2, rows, wanted);
    if (is_refused("stock", answer)) {
        free(rows);
        return 2;
    }
    for (k = 0; k < answer.value; k++) {
        const uint16_t *row = rows + 4 * k;
        if (row[0] == 0)
            printf("thing %u is %u\n", (unsigned)row[1], (unsigned)row[2]);
        else
            printf("thing %u is linked by %u to thing %u\n", (unsigned)row[1], (unsigned)row[2],
                   (unsigned)row[3]);
    }
    free(rows);
    return 0;
}

int main(void)
{
    uint64_t filling[1];
    hc_answer answer = hc_match(TABLES, filling, LEN(filling));
    int status;

    if (answer.number == HC_NO_FILLING) {
        printf("nothing fills the card\n");
        return 1;
    }
    if (is_refused("filling", answer))
        return 2;
    status = print_chosen(filling);
    if (status == 0)
        status = print_derivation(filling);
    if (status == 0)
        status = print_stock(filling);
    return status;
}
