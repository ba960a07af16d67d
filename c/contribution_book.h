/*
 * The contribution book for C hosts: libcontribution_book.a, proved in Rattle.
 *
 * A book goes in and comes out as an image, the bytes of document 01's section "Image". An image that begins the work
 * is CONTRIBUTION_BOOK_FRESH; every other one is written by contribution_book_post or contribution_book_carry_over.
 *
 * Every call returns, for every input, a struct whose first members are
 *   refusal  0 where the call is accepted, else the refusal number of document 01 or of a change request
 *   record   where the image is refused, the number of its record at fault, from 1; 0 where no record is at fault, and 0
 *            where the image is accepted, whether or not the call then is
 * A refused call has zeros in every other member, and writes nothing. An accepted one writes its result at the start of
 * each buffer that it leaves something in, and no byte past it.
 *
 * Refusal numbers 27 to 29 are of late-charge runs. An image holds no such run and no call opens one, so that no call
 * gives them. A late charge (kind 12) is an entry that such a run made. In an image it charges its account by its amount,
 * 0 to 100,000,000, its further fields being zero; no entry may name it. Posted or carried over it is refused by 1, as an
 * unknown kind is.
 *
 * A bill of zero days served (kind 3 with b 0) is refused by 30, straight after 5, where it is posted or carried over. An
 * image is never refused by 30: there such a bill stands at zero and may be corrected as any other.
 *
 * Each buffer is a pointer and its length in bytes. The pointer is not null, also where the length is 0. The buffers that a
 * call writes must not overlap one another or those that it reads. No call keeps a pointer, allocates, or uses memory that
 * another call uses, so that calls on separate buffers may run at once. A call uses up to 1 MiB of stack.
 *
 * A record is 24 bytes, its numbers little-endian: kind at byte 0, node at 1, account at 2, day at 4, next index at 6,
 * serial at 8, amount at 12, named serial at 16, a at 20, b at 22, named node at 23.
 *
 * The archive is for x86-64 Linux.
 */
#ifndef CONTRIBUTION_BOOK_H
#define CONTRIBUTION_BOOK_H

#include <stdbool.h>
#include <stddef.h>
#include <stdint.h>

#ifdef __cplusplus
extern "C" {
#endif

/* The bytes of an image's header and of each record, and of the longest image: the header and 1,024 records. */
#define CONTRIBUTION_BOOK_RECORD 24
#define CONTRIBUTION_BOOK_LONGEST_IMAGE 24600

/* The bytes of a page: 66 lines of 80 columns, each closed by a newline. */
#define CONTRIBUTION_BOOK_PAGE 5346

/* The image of a fresh book, as the initializer of an array of CONTRIBUTION_BOOK_RECORD bytes. */
#define CONTRIBUTION_BOOK_FRESH {'C', 'H', 'B', '1'}

struct contribution_book_check_given {
    uint8_t refusal;
    uint16_t record;
    uint16_t entries; /* how many entries the book has */
};

/*
 * Checks an image.
 * Takes    the image.
 * Gives    the number of its entries.
 * Refuses  the image, by 17 to 19, or by 1 to 16, 20 and 24 to 26 with the record at fault.
 * Leaves   nothing: it writes to no buffer.
 */
struct contribution_book_check_given contribution_book_check(const uint8_t *image, size_t image_length);

struct contribution_book_posting_given {
    uint8_t refusal;
    uint16_t record;
    uint16_t number;   /* the number of the entry, from 1 */
    size_t bytes;      /* the length of the image written */
    uint64_t settled;  /* arrears settled by a credit, in cents, as are the following */
    uint64_t paid_out;
    uint64_t retained;
    uint64_t interest;
};

/*
 * Posts one entry.
 * Takes    the image, and the entry as a record, whose next index is not read.
 * Gives    the entry's number, the four amounts of its answer, and the length of the next image.
 * Refuses  the image; then the entry by 17 where it hasn't 24 bytes, and by 1 to 16, 24 to 26 and 30; then by 21 an output
 *          that is shorter than the next image.
 * Leaves   the next image at the start of the output, which must not overlap the image or the entry.
 */
struct contribution_book_posting_given contribution_book_post(const uint8_t *image, size_t image_length,
                                                              const uint8_t *entry, size_t entry_length,
                                                              uint8_t *output, size_t output_length);

struct contribution_book_carry_given {
    uint8_t refusal;
    uint16_t record;
    size_t bytes; /* the length of the image written */
};

/*
 * Carries over the other node's entries: posts each in turn.
 * Takes    the image, and the entries, each as a record, whose next index is not read.
 * Gives    the length of the next image.
 * Refuses  the image; then the entries by 17 where their length is no multiple of 24; then by 22 a result list that is shorter
 *          than the entries; then by 21 an output that is shorter than the next image. An entry that is refused doesn't
 *          refuse the call.
 * Leaves   each entry's refusal number, 1 to 16, 24 to 26 or 30, or 0, at its place in the result list, and the next image
 *          at the start of the output. The two must not overlap each other, the image or the entries.
 *
 * An output of CONTRIBUTION_BOOK_LONGEST_IMAGE bytes always has room. Where an output has no room for the image with
 * all the entries, each is posted twice, the first time only to learn whether the next image fits.
 */
struct contribution_book_carry_given contribution_book_carry_over(const uint8_t *image, size_t image_length,
                                                                  const uint8_t *entries, size_t entries_length,
                                                                  uint8_t *results, size_t results_length,
                                                                  uint8_t *output, size_t output_length);

struct contribution_book_statement_given {
    uint8_t refusal;
    uint16_t record;
    uint16_t links_read;
    bool complete;     /* whether every entry of the account was read */
    uint64_t arrears;  /* in cents, as are the following */
    uint64_t credit;
    uint64_t deposit;  /* deposit held */
    uint64_t held;     /* held, summed over the account's contributions */
    uint64_t bills;    /* standing bills and late charges, summed over the entries read */
    uint64_t payments; /* standing payments, summed over the entries read */
};

/*
 * The statement of an account.
 * Takes    the image, the account, and how many of the account's entries to read at most, newest first.
 * Gives    the figures above.
 * Refuses  the image; then by 3 an account that is not 1 to 128.
 * Leaves   nothing: it writes to no buffer.
 */
struct contribution_book_statement_given contribution_book_statement(const uint8_t *image, size_t image_length,
                                                                     uint16_t account, uint64_t allowance);

struct contribution_book_contribution_given {
    uint8_t refusal;
    uint16_t record;
    uint16_t added;      /* customers added */
    bool closed;
    uint64_t amount;     /* in cents, as are the following */
    uint64_t to_arrears; /* refunds to arrears */
    uint64_t paid_out;   /* refunds paid out */
    uint64_t held;
    uint64_t retained;
};

/*
 * What became of a contribution.
 * Takes    the image, the account, and the node and serial that the contribution carries.
 * Gives    the figures above.
 * Refuses  the image; then by 2 a node that is not 1 or 2, by 3 an account that is not 1 to 128, and by 8 a pair of node
 *          and serial that no contribution of the account carries.
 * Leaves   nothing: it writes to no buffer.
 */
struct contribution_book_contribution_given contribution_book_contribution(const uint8_t *image, size_t image_length,
                                                                           uint16_t account, uint8_t node,
                                                                           uint32_t serial);

struct contribution_book_year_given {
    uint8_t refusal;
    uint16_t record;
    uint16_t entries;  /* how many entries of any kind are dated in the year */
    uint64_t bills;    /* standing bills and late charges, in cents, as are the following */
    uint64_t payments; /* standing payments */
    uint64_t paid_out; /* by added customers, deposit returns and reductions */
};

/*
 * The totals of a calendar year, over all accounts: those of document 02's request 7.
 * Takes    the image and the year.
 * Gives    the figures above, summed over the entries dated in the year. A bill or payment counts in its own year as it stands,
 *          whenever it was corrected. The book has the years 2000 to 2099; every other year gives zeros.
 * Refuses  the image.
 * Leaves   nothing: it writes to no buffer.
 */
struct contribution_book_year_given contribution_book_year(const uint8_t *image, size_t image_length, uint16_t year);

struct contribution_book_page_given {
    uint8_t refusal;
    uint16_t record;
    size_t bytes; /* the length of the page written */
};

/*
 * The statement page of an account, as text: that of document 02's request 1.
 * Takes    the image and the account.
 * Gives    the length of the page, CONTRIBUTION_BOOK_PAGE.
 * Refuses  the image; then by 3 an account that is not 1 to 128; then by 23 an output that is shorter than the page.
 * Leaves   the page at the start of the output, which must not overlap the image.
 *
 * Line 1         the account, to column 3
 * Lines 3 to 6   arrears, credit, deposit held and held, to column 80; they are the statement's
 * Lines 8 to 65  the account's newest 58 entries, newest first, a line each: number to column 4, day to column 10, kind to
 *                column 13, amount to column 80: the standing amount of a bill or payment, else the entry's own, 0.00
 *                where the kind has none
 * Amounts are dollars, at least one digit, a point and two digits of cents. Account, number, day and kind have no leading
 * zeros. Every other position is a space; lines 2, 7 and 66, and those that no entry takes, are blank.
 */
struct contribution_book_page_given contribution_book_page(const uint8_t *image, size_t image_length, uint16_t account,
                                                           uint8_t *output, size_t output_length);

#ifdef __cplusplus
}
#endif

#endif
