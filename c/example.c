/*
 * A host posts a payment to a fresh book, carries over five entries of the other node, and reads a statement, the totals of
 * a year and a page. It writes what the book gives, and exits with 1 where a call is refused.
 */
#include <inttypes.h>
#include <stdio.h>
#include <string.h>

#include "contribution_book.h"

enum { CONTRIBUTION = 1, BILL = 3, PAYMENT = 4, DEPOSIT = 5, DEPOSIT_RETURN = 6 };

/* Writes a number of so many bytes, little-endian. */
static void put(uint8_t *at, size_t width, uint32_t value) {
    for (size_t i = 0; i < width; i++) {
        at[i] = (uint8_t)(value >> (8 * i));
    }
}

/* Writes the record of an entry of account 5 and day 10 that names no other. */
static void put_entry(uint8_t *at, uint8_t kind, uint8_t node, uint32_t serial, uint32_t amount, uint16_t a, uint8_t b) {
    memset(at, 0, CONTRIBUTION_BOOK_RECORD);
    at[0] = kind;
    at[1] = node;
    put(at + 2, 2, 5);
    put(at + 4, 2, 10);
    put(at + 8, 4, serial);
    put(at + 12, 4, amount);
    put(at + 20, 2, a);
    at[22] = b;
}

static int refused(const char *call, uint8_t refusal, uint16_t record) {
    fprintf(stderr, "%s refused by %u, record %u\n", call, (unsigned)refusal, (unsigned)record);
    return 1;
}

/* Writes the totals of the year 2000, which has day 10. */
static int write_year(const uint8_t *image, size_t image_length) {
    struct contribution_book_year_given given = contribution_book_year(image, image_length, 2000);
    if (given.refusal != 0) {
        return refused("year", given.refusal, given.record);
    }
    printf("2000: bills %" PRIu64 ", payments %" PRIu64 ", paid out %" PRIu64 ", entries %u\n", given.bills,
           given.payments, given.paid_out, (unsigned)given.entries);
    return 0;
}

/* Writes the first 9 lines of account 5's page: the account, the four figures and the newest two entries. */
static int write_page(const uint8_t *image, size_t image_length) {
    enum { LINE = 80 + 1, LINES = 9 };
    static uint8_t page[CONTRIBUTION_BOOK_PAGE];
    struct contribution_book_page_given given = contribution_book_page(image, image_length, 5, page, sizeof page);
    if (given.refusal != 0) {
        return refused("page", given.refusal, given.record);
    }
    fwrite(page, LINE, LINES, stdout);
    return 0;
}

int main(void) {
    static const uint8_t fresh[CONTRIBUTION_BOOK_RECORD] = CONTRIBUTION_BOOK_FRESH;
    static uint8_t first[CONTRIBUTION_BOOK_LONGEST_IMAGE], second[CONTRIBUTION_BOOK_LONGEST_IMAGE];

    /* A payment of 2,500 by node 1. */
    uint8_t payment[CONTRIBUTION_BOOK_RECORD];
    put_entry(payment, PAYMENT, 1, 1, 2500, 0, 0);
    struct contribution_book_posting_given posted =
        contribution_book_post(fresh, sizeof fresh, payment, sizeof payment, first, sizeof first);
    if (posted.refusal != 0) {
        return refused("post", posted.refusal, posted.record);
    }
    printf("entry %u, image of %zu bytes\n", (unsigned)posted.number, posted.bytes);

    /* Node 2's contribution of 300,000 for 200 metres and one phase, and one for 0 metres, which is refused by 5; a bill of
     * 900, for 30 days of 30; a deposit of 5,000 without interest, and its return. */
    enum { ENTRIES = 5 };
    uint8_t entries[ENTRIES][CONTRIBUTION_BOOK_RECORD], results[ENTRIES];
    put_entry(entries[0], CONTRIBUTION, 2, 1, 300000, 200, 1);
    put_entry(entries[1], CONTRIBUTION, 2, 2, 300000, 0, 1);
    put_entry(entries[2], BILL, 2, 3, 900, 30, 30);
    put_entry(entries[3], DEPOSIT, 2, 4, 5000, 0, 0);
    put_entry(entries[4], DEPOSIT_RETURN, 2, 5, 0, 0, 0);
    struct contribution_book_carry_given carried = contribution_book_carry_over(
        first, posted.bytes, entries[0], sizeof entries, results, sizeof results, second, sizeof second);
    if (carried.refusal != 0) {
        return refused("carry_over", carried.refusal, carried.record);
    }
    printf("results");
    for (size_t i = 0; i < ENTRIES; i++) {
        printf(" %u", (unsigned)results[i]);
    }
    printf(", image of %zu bytes\n", carried.bytes);

    struct contribution_book_statement_given statement = contribution_book_statement(second, carried.bytes, 5, UINT64_MAX);
    if (statement.refusal != 0) {
        return refused("statement", statement.refusal, statement.record);
    }
    printf("arrears %" PRIu64 ", credit %" PRIu64 ", held %" PRIu64 ", payments %" PRIu64 "\n", statement.arrears,
           statement.credit, statement.held, statement.payments);
    if (write_year(second, carried.bytes) != 0) {
        return 1;
    }
    return write_page(second, carried.bytes);
}
