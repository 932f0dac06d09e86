/* The plant search for C and Rust: the operations of libc_api.a, which `rt lib` in crates/c_api makes.
 *
 * A list is passed as a pointer and its number of entries; an array of fixed length as a pointer. A pointer is not null, and
 * aligned to its type, also where the list is empty. Lists that a call writes to overlap no other list of that call.
 * Nothing is allocated or kept, so calls on different lists may run at the same time. Every call ends, whatever the lists hold.
 *
 * Devices are 1 to N, depth first; device d stands at index d - 1. docs/REFUSALS.md explains each refusal number; 0 is no
 * refusal.
 */
#ifndef PLANT_SEARCH_H
#define PLANT_SEARCH_H

#include <stddef.h>
#include <stdint.h>

#ifdef __cplusplus
extern "C" {
#endif

/* Checks device tables and index: the lowest of refusals 1 to 9 that applies, or 0.
 *
 * last: the last device of each device's branch. root: the root of its tree. level: its level code; 1 to 254 is a level, 0 and
 * 255 are none.
 * terms: the term numbers, rising. starts: where the list of each begins in postings. A posting is 2 times its device, plus 1
 * if it carries the term to the whole branch. */
uint32_t plant_search_check(
    const uint16_t *last, size_t last_length,
    const uint16_t *root, size_t root_length,
    const uint8_t *level, size_t level_length,
    const uint16_t *terms, size_t terms_length,
    const uint32_t *starts, size_t starts_length,
    const uint32_t *postings, size_t postings_length);

/* Searches two indexes: the first refusal that applies, or 0. The tables are checked in each call: devices 1 to 4, first index 5
 * to 9, second index 55 to 59 by the same rules, 15, then the query 10 to 14, in this order.
 *
 * terms, starts, postings: the first index, for terms below 32,768. second_terms, second_starts, second_postings: the second, for
 * terms from 32,768 up, over the same devices; lists of length 0 where there is none. 15: a term that is in the wrong index.
 * required, forbidden: the terms that a device must carry, and those that it must not; more than 8 of either is refusal 10. A
 * term that its index does not have is on no device.
 * levels: 0 for any level code; 1 for true levels only, which are 1 to 254; another number for codes low to high only. low and
 * high are looked at for a range alone, and codes 0 and 255 lie in none: a low of 0, a high above 254 or a low above high is
 * refusal 12. Position, passed and moves are the same whatever codes are wanted.
 * start: the device to begin at. budget: the most moves that the cursors may make.
 * answer: room for N devices or more. The matching devices are written to its front; other entries keep what they hold, and
 * after a refusal all do.
 * numbers: the number of devices listed, the position, passed, the moves made. The listing holds every match from the start up
 * to the position, and is complete where that is N + 1. Else the budget was spent there: going on from it as the start lists
 * the rest, with a larger budget, since the cursors begin anew. After a refusal all four are 0.
 * passed: the postings that the moves passed over without landing. With the moves they are never more than the postings of the
 * lists named. */
uint32_t plant_search_search(
    const uint16_t *last, size_t last_length,
    const uint16_t *root, size_t root_length,
    const uint8_t *level, size_t level_length,
    const uint16_t *terms, size_t terms_length,
    const uint32_t *starts, size_t starts_length,
    const uint32_t *postings, size_t postings_length,
    const uint16_t *second_terms, size_t second_terms_length,
    const uint32_t *second_starts, size_t second_starts_length,
    const uint32_t *second_postings, size_t second_postings_length,
    const uint32_t *required, size_t required_length,
    const uint32_t *forbidden, size_t forbidden_length,
    uint32_t levels, uint32_t low, uint32_t high,
    uint32_t start, uint32_t budget,
    uint16_t *answer, size_t answer_length,
    uint32_t numbers[4]);

/* Reads plant text into six tables: the refusal, 20 to 25 or 27 to 29, or 0.
 *
 * numbers: the line of the refusal or 0, then the numbers of devices, terms and postings.
 * Every entry beyond those is set to 0. After a refusal every entry of every table is 0, and so are the three numbers. */
uint32_t plant_search_read_plant(
    const uint8_t *text, size_t text_length,
    uint16_t *last, size_t last_length,
    uint16_t *root, size_t root_length,
    uint8_t *level, size_t level_length,
    uint16_t *terms, size_t terms_length,
    uint32_t *starts, size_t starts_length,
    uint32_t *postings, size_t postings_length,
    size_t numbers[4]);

/* Writes plant text from six tables: the lowest of refusals 1 to 9, 36 and 40 that applies, or 0. The tables are checked in
 * each call.
 *
 * text: the buffer. The text is written to its front; bytes past it keep what they hold, and after a refusal all do.
 * numbers: the length of the text, or 0 after a refusal.
 * 36: a device lies in more than 32 branches, its own among them. 40: the text is longer than the buffer, or than 65,536 bytes.
 * A text so written is read back as the same entries. Tables that a text was read into, handed over with the numbers of
 * devices, terms and postings as their lengths, are written as that text again. */
uint32_t plant_search_write_plant(
    const uint16_t *last, size_t last_length,
    const uint16_t *root, size_t root_length,
    const uint8_t *level, size_t level_length,
    const uint16_t *terms, size_t terms_length,
    const uint32_t *starts, size_t starts_length,
    const uint32_t *postings, size_t postings_length,
    uint8_t *text, size_t text_length,
    size_t numbers[1]);

/* Repairs lists that have several postings for a device, or redundant ones: the first of refusals 1 to 7, 8, 41 and 44 that
 * applies, or 0. The tables are checked in each call.
 *
 * Of each device in a list one posting stays: the first for the whole branch, else the first. What lies in the branch of another
 * posting of the list goes too. Every device carries the terms that it carried, and plant_search_check accepts the outcome.
 * starts, postings: repaired in their own room; entries that come free at the end of postings are set to 0. The postings are
 * those up to the new number: hand that over as their length from then on.
 * report: three entries for each posting that was dropped, in the order in which they stood: the term, the device, and 1 for
 * the whole branch or 0. Entries past them keep what they hold. Three times as many entries as postings are always enough.
 * numbers: how many postings were dropped, and the new number of postings.
 * 8: a posting's device is 0 or above N. 41: a device is below the one before it in its list. 44: the report is too short. After
 * a refusal starts, postings and report are as they were, and both numbers are 0. */
uint32_t plant_search_repair(
    const uint16_t *last, size_t last_length,
    const uint16_t *root, size_t root_length,
    const uint8_t *level, size_t level_length,
    const uint16_t *terms, size_t terms_length,
    uint32_t *starts, size_t starts_length,
    uint32_t *postings, size_t postings_length,
    uint32_t *report, size_t report_length,
    size_t numbers[2]);

/* Tightens each list: the smallest with which the same devices carry its term. The lowest of refusals 1 to 9 that applies, or 0.
 * The tables are checked in each call.
 *
 * A device that carries the term, but whose branch doesn't carry it throughout, has a posting for it alone. A branch that carries
 * it throughout and isn't inside a larger such branch has one posting at its top: for the whole branch, or for the device alone
 * where it feeds none. No list with the same carriers on this plant is shorter. Complete searches list the same devices, and
 * plant_search_check accepts the outcome.
 * starts, postings: tightened in their own room; entries that come free at the end of postings are set to 0. The postings are
 * those up to the new number: hand that over as their length from then on.
 * numbers: the new number of postings. After a refusal starts and postings are as they were, and the number is 0. */
uint32_t plant_search_tighten(
    const uint16_t *last, size_t last_length,
    const uint16_t *root, size_t root_length,
    const uint8_t *level, size_t level_length,
    const uint16_t *terms, size_t terms_length,
    uint32_t *starts, size_t starts_length,
    uint32_t *postings, size_t postings_length,
    size_t numbers[1]);

/* Reads ask text: the refusal, 30 to 35, or 0.
 *
 * required, forbidden: the terms, then zeros.
 * numbers: the line of the refusal or 0; how many required terms and how many forbidden; 0 if any level code is wanted, 1 for
 * true levels only, 2 for a range; low and high of the range, or zeros; start; budget. After a refusal the query is empty: no
 * terms, true levels only, start 1, the largest budget. */
uint32_t plant_search_read_query(
    const uint8_t *text, size_t text_length,
    uint32_t required[8],
    uint32_t forbidden[8],
    size_t numbers[8]);

/* Answers ask text over plant text, as the program prints it, with room for 1,024 devices, 256 terms and 4,096 postings.
 * The number of bytes written to the front of out. Bytes past that number keep what they hold. */
size_t plant_search_respond(
    const uint8_t *plant, size_t plant_length,
    const uint8_t *query, size_t query_length,
    uint8_t out[16384]);

#ifdef __cplusplus
}
#endif

#endif
