/*
 * Vumlintel: pairs of sites of two lists, by rank or by distance, whole or in strip jobs, and their prices.
 *
 * Every call answers a refusal number, 0 for success. A refused call writes nothing at all: no answer, no column, no buffer,
 * no part of a grid. A success writes its answers through the pointers at the end of its parameters, or into the grid that it
 * was lent first.
 *
 *   VUMLINTEL_LIST_SIZE       1  columns of unequal length, more than 65,535 sites, or (adding, removing) a count in use above
 *                                the length
 *   VUMLINTEL_LIMITS          2  an x or y outside -1,000,000,000 to 1,000,000,000, or a height outside -10,000 to 10,000
 *   VUMLINTEL_ORDER           3  sites not strictly ascending by x, then y, then number
 *   VUMLINTEL_K               4  K is 0 or above 4,096; lowering K: it is 0 or above the customer's present K, which is 0
 *                                before they have opened
 *   VUMLINTEL_CUT_ENDS        5  cut ends unlawful: at most 32, strictly ascending, each above 0, the last the list's length;
 *                                opening: cut ends other than the grid's
 *   VUMLINTEL_ROOM            6  a result column shorter than K, too few elements for the pairs found, a forecast's column
 *                                shorter than the first list, a buffer shorter than the file, or no room for one more site;
 *                                pricing: a price column or distance column shorter than the entry count, or a count above
 *                                4,096
 *   VUMLINTEL_CAMPAIGN        7  the grid, what the customer has in it and their result columns do not fit each other or the
 *                                lists, or they have not opened; an entry of co-sited cells is such a fault; a mark above 3,
 *                                or one that is not 0 outside the jobs, is one for either customer, at opening too; pricing: a
 *                                squared distance not below 2,828,427,125 squared
 *   VUMLINTEL_RANGE           8  a strip number not below the strip count, a place not below the list's count, or (editing a
 *                                band) a place not below the number of bands; several jobs in one call: columns of unequal
 *                                length, or a way other than 0, 1 or 2
 *   VUMLINTEL_SETTLED         9  the job is settled already, for this customer; several jobs in one call: before it, or by a
 *                                job further up in it
 *   VUMLINTEL_FILE           10  the file's contents or length are wrong
 *   VUMLINTEL_PRESENT        11  the same x, y and number is in the list already
 *   VUMLINTEL_BAND_GAP       12  a band that starts above the end of the band before, a first band that starts above 0, or a
 *                                last band that ends below 2,828,427,125
 *   VUMLINTEL_BAND_OVERLAP   13  a band that starts below the end of the band before, is empty (its to is not above its from)
 *                                or ends above 2,828,427,125
 *   VUMLINTEL_TARIFF         14  no band, more than 64 bands, or a price above 1,000,000
 *   VUMLINTEL_CUSTOMER       15  a customer number other than 1 or 2
 *   VUMLINTEL_ABSENT         16  no site with this x, y and number is in the list
 *
 * Order: 15 before all else, then the first list's 1, 2, 3, then the second list's, then the rest by number. Adding tests the
 * new site (2) after the list; removing does not, and a site outside the limits gets 16. A file below 16 bytes gets 10; any
 * other is tested for 1 (counts), then 10, then its lists for 2 and 3. Pricing tests the bands for 14, then band by band, from
 * the first on, for 13 and then 12, so that the first band at fault decides; then for 6, then for 7. Several jobs in one call
 * are tested, after 7, for 8 (their columns), then job by job, from the first on, for 8 and then 9, so that the first job at
 * fault decides.
 *
 * A list is four columns: x, y, number and height, each a pointer and an element count. Its order does not look at the height.
 * A site's place is its index from 0. The squared distance of two sites is the sum of the squares of the differences of x, y
 * and height, at most 8,000,000,000,400,000,000. A pair is a place in the first list and a place in the second whose sites do
 * not stand at the same x, y and height: co-sited cells are no pair. Pairs are ranked by squared distance, then first place,
 * then second. A site file is of the plane: its lists are three columns, x, y and number, and no height is filed.
 *
 * What the caller owes: each pointer is aligned and not null, also with a count of 0, and leads to as many elements as its
 * count says; what a call writes overlaps nothing else that it is lent; nobody else writes what is lent until the call is back.
 */
#ifndef VUMLINTEL_H
#define VUMLINTEL_H

#include <stddef.h>
#include <stdint.h>

#ifdef __cplusplus
extern "C" {
#endif

enum {
    VUMLINTEL_OK = 0,
    VUMLINTEL_LIST_SIZE = 1,
    VUMLINTEL_LIMITS = 2,
    VUMLINTEL_ORDER = 3,
    VUMLINTEL_K = 4,
    VUMLINTEL_CUT_ENDS = 5,
    VUMLINTEL_ROOM = 6,
    VUMLINTEL_CAMPAIGN = 7,
    VUMLINTEL_RANGE = 8,
    VUMLINTEL_SETTLED = 9,
    VUMLINTEL_FILE = 10,
    VUMLINTEL_PRESENT = 11,
    VUMLINTEL_BAND_GAP = 12,
    VUMLINTEL_BAND_OVERLAP = 13,
    VUMLINTEL_TARIFF = 14,
    VUMLINTEL_CUSTOMER = 15,
    VUMLINTEL_ABSENT = 16
};

/* Checks a list: how many sites it has, or 1, 2, 3. */
uint32_t vumlintel_check(const int32_t *x, size_t xs, const int32_t *y, size_t ys, const uint32_t *number, size_t numbers,
                         const int32_t *height, size_t heights, uint32_t *count);

/*
 * Adds a site to the first `in_use` sites of four columns, at its place by x, y and number; later ones move up by one. Answers
 * the place and the new count in use, or 1, 2, 3 for the sites in use, 2 for the site, its height included, 6, 11.
 */
uint32_t vumlintel_add(int32_t *x, size_t xs, int32_t *y, size_t ys, uint32_t *number, size_t numbers, int32_t *height,
                       size_t heights, uint32_t in_use, int32_t site_x, int32_t site_y, uint32_t site_number,
                       int32_t site_height, uint32_t *place, uint32_t *count);

/*
 * Removes the site with this x, y and number, whatever its height, from the first `in_use` sites of four columns; later ones
 * move down by one, in every column. The element freed at the end keeps its old contents, and all past it stay. Answers the
 * place it had and the new count in use, or 1, 2, 3 for the sites in use, 16.
 */
uint32_t vumlintel_remove(int32_t *x, size_t xs, int32_t *y, size_t ys, uint32_t *number, size_t numbers, int32_t *height,
                          size_t heights, uint32_t in_use, int32_t site_x, int32_t site_y, uint32_t site_number,
                          uint32_t *place, uint32_t *count);

/*
 * The K list of two lists, by the classic sweep or by Reverse Run: the first K pairs by rank, or all where there are fewer, in
 * rank order in three columns: squared distance, first place, second place. Answers the entry count and the sweep's looks and
 * distances, or 1, 2, 3 for each list, 4, 6. Elements past the entries stay.
 */
uint32_t vumlintel_k_list_classic(const int32_t *ax, size_t axs, const int32_t *ay, size_t ays, const uint32_t *an, size_t ans,
                                  const int32_t *ah, size_t ahs, const int32_t *bx, size_t bxs, const int32_t *by, size_t bys,
                                  const uint32_t *bn, size_t bns, const int32_t *bh, size_t bhs, uint32_t k, uint64_t *distance,
                                  size_t distance_length, uint32_t *first, size_t first_length, uint32_t *second,
                                  size_t second_length, uint32_t *entries, uint64_t *looks, uint64_t *distances);

uint32_t vumlintel_k_list_reverse_run(const int32_t *ax, size_t axs, const int32_t *ay, size_t ays, const uint32_t *an,
                                      size_t ans, const int32_t *ah, size_t ahs, const int32_t *bx, size_t bxs,
                                      const int32_t *by, size_t bys, const uint32_t *bn, size_t bns, const int32_t *bh,
                                      size_t bhs, uint32_t k, uint64_t *distance, size_t distance_length, uint32_t *first,
                                      size_t first_length, uint32_t *second, size_t second_length, uint32_t *entries,
                                      uint64_t *looks, uint64_t *distances);

/*
 * The same K list by halves. It goes through pairs of ranges of places, one range of each list, from the two whole lists on.
 * Where K entries are held and the boxes around the sites of the two ranges (least and greatest x, y and height) are farther
 * apart than the last of them, the pair of ranges is dropped. Otherwise the longer range is split at its middle, the first
 * list's where both are equally long, the lower half having half the length rounded down, and the half nearer to the other
 * range comes first, the lower one where both are equally near; two single sites are offered to the list as a pair. Answers
 * the entry count and how many range pairs it came to, dropped ones and single sites included, 0 where a list is empty; or the
 * refusals of a K list by a sweep. It is worth trying where x tells little, but sites that are near in the list are near on
 * the ground, as along a road in y.
 */
uint32_t vumlintel_k_list_halves(const int32_t *ax, size_t axs, const int32_t *ay, size_t ays, const uint32_t *an, size_t ans,
                                 const int32_t *ah, size_t ahs, const int32_t *bx, size_t bxs, const int32_t *by, size_t bys,
                                 const uint32_t *bn, size_t bns, const int32_t *bh, size_t bhs, uint32_t k, uint64_t *distance,
                                 size_t distance_length, uint32_t *first, size_t first_length, uint32_t *second,
                                 size_t second_length, uint32_t *entries, uint64_t *range_pairs);

/*
 * The distance list of two lists: all pairs with a squared distance of at most e * e, by first place and then second, in two
 * columns. Answers their count, or 1, 2, 3 for each list, or 6 where the shorter column has fewer elements. Elements past the
 * pairs stay.
 */
uint32_t vumlintel_distance_list(const int32_t *ax, size_t axs, const int32_t *ay, size_t ays, const uint32_t *an, size_t ans,
                                 const int32_t *ah, size_t ahs, const int32_t *bx, size_t bxs, const int32_t *by, size_t bys,
                                 const uint32_t *bn, size_t bns, const int32_t *bh, size_t bhs, uint32_t e, uint32_t *first,
                                 size_t first_length, uint32_t *second, size_t second_length, uint64_t *count);

/*
 * The forecast of a distance list's size: how many places of the second list are at most e from a place of the first in x,
 * whatever their y and height, co-sited cells among them. Answers the total, and in the column the number of each place of the
 * first list, or 1, 2, 3 for each list, or 6 for a column shorter than the first list. Elements past the list stay. A distance
 * list with this e has no more pairs, in total and for each place, so columns as long as the total have room for it.
 */
uint32_t vumlintel_forecast(const int32_t *ax, size_t axs, const int32_t *ay, size_t ays, const uint32_t *an, size_t ans,
                            const int32_t *ah, size_t ahs, const int32_t *bx, size_t bxs, const int32_t *by, size_t bys,
                            const uint32_t *bn, size_t bns, const int32_t *bh, size_t bhs, uint32_t e, uint32_t *partners,
                            size_t partners_length, uint64_t *total);

/*
 * A grid: the cut ends of both lists and 1,024 marks, one for each job, which two customers share, customer 1 and customer 2.
 * Each customer runs a campaign of their own on it: they have a K, an entry count and their own bit of each mark in the grid,
 * and result columns of their own, which hold their entries and which they lend with each call. A grid may be kept anywhere
 * between calls. What a customer is told depends on the lists, the ends and what is their own, never on what the other one has
 * done: beside the ends they may read their own K, entry count and bits.
 */
typedef struct vumlintel_grid {
    uint32_t first_strips;
    uint32_t second_strips;
    uint32_t first_ends[32];
    uint32_t second_ends[32];
    uint8_t marks[1024]; /* job (a, b) is mark 32 * a + b, from 0 to 3: customer 1 owns the 1, customer 2 the 2 */
    uint32_t k1;
    uint32_t entries1;
    uint32_t k2;
    uint32_t entries2;
} vumlintel_grid;

/* The parts of a grid, as the calls below take them. */
#define VUMLINTEL_PARTS(g)                                                                                                     \
    &(g)->first_strips, &(g)->second_strips, (g)->first_ends, (g)->second_ends, (g)->marks, &(g)->k1, &(g)->entries1,          \
        &(g)->k2, &(g)->entries2

/*
 * Prepares a grid, whatever it held: the cut ends of both lists. Strip s of a list runs from end s - 1 (or 0) up to, not
 * including, end s. Answers the grid: the ends, 0 past them, every mark, both K and both entry counts 0, so that both customers
 * have yet to open; or 1, 2, 3 for each list, 5.
 */
uint32_t vumlintel_prepare(const int32_t *ax, size_t axs, const int32_t *ay, size_t ays, const uint32_t *an, size_t ans,
                           const int32_t *ah, size_t ahs, const int32_t *bx, size_t bxs, const int32_t *by, size_t bys,
                           const uint32_t *bn, size_t bns, const int32_t *bh, size_t bhs, const uint32_t *first_cuts,
                           size_t first_cuts_length, const uint32_t *second_cuts, size_t second_cuts_length,
                           uint32_t *first_strips, uint32_t *second_strips, uint32_t first_ends[32], uint32_t second_ends[32],
                           uint8_t marks[1024], uint32_t *k1, uint32_t *entries1, uint32_t *k2, uint32_t *entries2);

/*
 * Opens a campaign of one customer, with this K: with no entry, and no job settled for them. The cut ends are lent once more
 * and are the grid's. The result columns are not written, and what the other customer has in the grid stays. Answers the grid,
 * or 15, 1, 2, 3 for each list, 4, 5, 6, 7 (the marks alone).
 */
uint32_t vumlintel_open(uint32_t *first_strips, uint32_t *second_strips, uint32_t first_ends[32], uint32_t second_ends[32],
                        uint8_t marks[1024], uint32_t *k1, uint32_t *entries1, uint32_t *k2, uint32_t *entries2,
                        uint32_t customer, const int32_t *ax, size_t axs, const int32_t *ay, size_t ays, const uint32_t *an,
                        size_t ans, const int32_t *ah, size_t ahs, const int32_t *bx, size_t bxs, const int32_t *by, size_t bys,
                        const uint32_t *bn, size_t bns, const int32_t *bh, size_t bhs, uint32_t k, const uint32_t *first_cuts,
                        size_t first_cuts_length, const uint32_t *second_cuts, size_t second_cuts_length,
                        const uint64_t *distance, size_t distance_length, const uint32_t *first, size_t first_length,
                        const uint32_t *second, size_t second_length);

/*
 * Lowers the K of one customer in mid-campaign, to any number from 1 to their present K. Their marks stay, and their entries
 * are cut: the entry count becomes the lesser of the new K and what it was. The result columns are not written, so that what
 * was cut still stands in them past the entries, and what the other customer has in the grid stays. Answers the grid, or 15,
 * 1, 2, 3 for each list, 4 (every K before they have opened), 7 (as for status, with the present K).
 * Where only campaign calls write the grid and the columns, and the lists stay, all later answers and entries are, until K
 * changes again, as if the campaign had been opened with the smaller K and the same jobs settled. K goes up by opening alone.
 */
uint32_t vumlintel_lower_k(uint32_t *first_strips, uint32_t *second_strips, uint32_t first_ends[32], uint32_t second_ends[32],
                           uint8_t marks[1024], uint32_t *k1, uint32_t *entries1, uint32_t *k2, uint32_t *entries2,
                           uint32_t customer, const int32_t *ax, size_t axs, const int32_t *ay, size_t ays, const uint32_t *an,
                           size_t ans, const int32_t *ah, size_t ahs, const int32_t *bx, size_t bxs, const int32_t *by,
                           size_t bys, const uint32_t *bn, size_t bns, const int32_t *bh, size_t bhs, uint32_t k,
                           const uint64_t *distance, size_t distance_length, const uint32_t *first, size_t first_length,
                           const uint32_t *second, size_t second_length);

/*
 * Does the job of a strip of each list for one customer, by the classic sweep or by Reverse Run. It is skipped where K entries
 * of theirs are held and the boxes around the two strips' sites (least and greatest x, y and height) are farther apart than the
 * last of them: where the sum of the squares of the x gap, the y gap and the height gap, each 0 where the ranges touch or
 * overlap, is greater than the last squared distance.
 * Answers the grid, in which the customer's bit of the job's mark is set and their entry count is the new one, whether the job
 * was swept (1) or skipped (0), and looks and distances, both 0 when skipped; or 15, 1, 2, 3 for each list, 7, 8, 9.
 */
uint32_t vumlintel_job_classic(uint32_t *first_strips, uint32_t *second_strips, uint32_t first_ends[32],
                               uint32_t second_ends[32], uint8_t marks[1024], uint32_t *k1, uint32_t *entries1, uint32_t *k2,
                               uint32_t *entries2, uint32_t customer, const int32_t *ax, size_t axs, const int32_t *ay,
                               size_t ays, const uint32_t *an, size_t ans, const int32_t *ah, size_t ahs, const int32_t *bx,
                               size_t bxs, const int32_t *by, size_t bys, const uint32_t *bn, size_t bns, const int32_t *bh,
                               size_t bhs, uint64_t *distance, size_t distance_length, uint32_t *first, size_t first_length,
                               uint32_t *second, size_t second_length, uint32_t first_strip, uint32_t second_strip,
                               uint32_t *swept, uint64_t *looks, uint64_t *distances);

uint32_t vumlintel_job_reverse_run(uint32_t *first_strips, uint32_t *second_strips, uint32_t first_ends[32],
                                   uint32_t second_ends[32], uint8_t marks[1024], uint32_t *k1, uint32_t *entries1,
                                   uint32_t *k2, uint32_t *entries2, uint32_t customer, const int32_t *ax, size_t axs,
                                   const int32_t *ay, size_t ays, const uint32_t *an, size_t ans, const int32_t *ah, size_t ahs,
                                   const int32_t *bx, size_t bxs, const int32_t *by, size_t bys, const uint32_t *bn, size_t bns,
                                   const int32_t *bh, size_t bhs, uint64_t *distance, size_t distance_length, uint32_t *first,
                                   size_t first_length, uint32_t *second, size_t second_length, uint32_t first_strip,
                                   uint32_t second_strip, uint32_t *swept, uint64_t *looks, uint64_t *distances);

/*
 * The same by halves, from the two strips on and with the entries held: in place of looks and distances it answers the range
 * pairs, 0 when skipped. Jobs of one campaign may be done by different ways.
 */
uint32_t vumlintel_job_halves(uint32_t *first_strips, uint32_t *second_strips, uint32_t first_ends[32],
                              uint32_t second_ends[32], uint8_t marks[1024], uint32_t *k1, uint32_t *entries1, uint32_t *k2,
                              uint32_t *entries2, uint32_t customer, const int32_t *ax, size_t axs, const int32_t *ay,
                              size_t ays, const uint32_t *an, size_t ans, const int32_t *ah, size_t ahs, const int32_t *bx,
                              size_t bxs, const int32_t *by, size_t bys, const uint32_t *bn, size_t bns, const int32_t *bh,
                              size_t bhs, uint64_t *distance, size_t distance_length, uint32_t *first, size_t first_length,
                              uint32_t *second, size_t second_length, uint32_t first_strip, uint32_t second_strip,
                              uint32_t *swept, uint64_t *range_pairs);

/*
 * Does several jobs for one customer in one call, from the first row of three columns of equal length to the last: job i is
 * that of the strips job_first[i] and job_second[i], and job_way[i] is 0 for the classic sweep, 1 for Reverse Run and 2 for
 * halves, in any mixture. Both lists and the grid are tested once, not for each job. The call ends as those jobs would, one
 * after another in calls of their own: each is skipped or not by the entries that those before it left.
 * Answers the grid, in which the customer's bit of each job's mark is set and their entry count is the new one, how many of
 * the jobs were skipped, and looks, distances and range pairs, each summed alone over the jobs, to which a skipped one adds
 * nothing; or 15, 1, 2, 3 for each list, 7, 8, 9. No row at all is accepted: the grid and the columns stay, and all four
 * numbers are 0. A job at fault refuses the whole call, and none of its jobs is done: more than 1,024 rows cannot be accepted.
 */
uint32_t vumlintel_jobs(uint32_t *first_strips, uint32_t *second_strips, uint32_t first_ends[32], uint32_t second_ends[32],
                        uint8_t marks[1024], uint32_t *k1, uint32_t *entries1, uint32_t *k2, uint32_t *entries2,
                        uint32_t customer, const int32_t *ax, size_t axs, const int32_t *ay, size_t ays, const uint32_t *an,
                        size_t ans, const int32_t *ah, size_t ahs, const int32_t *bx, size_t bxs, const int32_t *by, size_t bys,
                        const uint32_t *bn, size_t bns, const int32_t *bh, size_t bhs, uint64_t *distance,
                        size_t distance_length, uint32_t *first, size_t first_length, uint32_t *second, size_t second_length,
                        const uint32_t *job_first, size_t job_first_length, const uint32_t *job_second,
                        size_t job_second_length, const uint32_t *job_way, size_t job_way_length, uint32_t *skipped,
                        uint64_t *looks, uint64_t *distances, uint64_t *range_pairs);

/*
 * Answers the jobs settled for one customer, the jobs in all, their entries and their K; or 15, 1, 2, 3 for each list, 7.
 * Writes nothing else.
 */
uint32_t vumlintel_status(const uint32_t *first_strips, const uint32_t *second_strips, const uint32_t first_ends[32],
                          const uint32_t second_ends[32], const uint8_t marks[1024], const uint32_t *k1,
                          const uint32_t *entries1, const uint32_t *k2, const uint32_t *entries2, uint32_t customer,
                          const int32_t *ax, size_t axs, const int32_t *ay, size_t ays, const uint32_t *an, size_t ans,
                          const int32_t *ah, size_t ahs, const int32_t *bx, size_t bxs, const int32_t *by, size_t bys,
                          const uint32_t *bn, size_t bns, const int32_t *bh, size_t bhs, const uint64_t *distance,
                          size_t distance_length, const uint32_t *first, size_t first_length, const uint32_t *second,
                          size_t second_length, uint32_t *settled, uint32_t *jobs, uint32_t *entries, uint32_t *k);

/* Writes two lists, three columns each, as a site file from a buffer's start on: its length, or 1, 2, 3 for each list, 6. */
uint32_t vumlintel_write_file(const int32_t *ax, size_t axs, const int32_t *ay, size_t ays, const uint32_t *an, size_t ans,
                              const int32_t *bx, size_t bxs, const int32_t *by, size_t bys, const uint32_t *bn, size_t bns,
                              uint8_t *buffer, size_t buffer_length, uint32_t *length);

/* Tests a site file. Answers both site counts, or 10, 1, 10, then 2, 3 for each list. */
uint32_t vumlintel_read_file(const uint8_t *file, size_t file_length, uint32_t *first, uint32_t *second);

/* A site of the file's first or second list, as it lies: 10, 1, 10 and 8 are tested, 2 and 3 are not. */
uint32_t vumlintel_file_site_first(const uint8_t *file, size_t file_length, uint32_t place, int32_t *x, int32_t *y,
                                   uint32_t *number);

uint32_t vumlintel_file_site_second(const uint8_t *file, size_t file_length, uint32_t place, int32_t *x, int32_t *y,
                                    uint32_t *number);

/*
 * A price band: a pair is in it where from * from is at most its squared distance and to * to is greater. A table of bands is
 * an array of them. A lawful one has 1 to 64 bands, none empty, with prices up to 1,000,000; the first from is 0, each later
 * from is the to of the band before, and the last to is 2,828,427,125. So each pair of any two lists is in exactly one band.
 */
typedef struct vumlintel_band {
    uint32_t from;
    uint32_t to;
    uint32_t price;
} vumlintel_band;

/*
 * Replaces the band at a place of a table of any length by these three numbers, whatever they are: no band is judged before
 * pricing. Answers the place in `edited`, or 8. Every other band stays.
 */
uint32_t vumlintel_edit_band(vumlintel_band *bands, size_t bands_length, uint32_t place, uint32_t from, uint32_t to,
                             uint32_t price, uint32_t *edited);

/*
 * Prices a case list: the first `entries` squared distances of a column, such as a K list's, in any order. Answers the total,
 * and in the price column each entry's price, that of the band it is in; or 14, 12 or 13, 6, 7. Elements past the entries stay,
 * and distances past them are not tested.
 */
uint32_t vumlintel_price(const vumlintel_band *bands, size_t bands_length, const uint64_t *distance, size_t distance_length,
                         uint32_t entries, uint32_t *prices, size_t prices_length, uint64_t *total);

#ifdef __cplusplus
}
#endif

#endif
