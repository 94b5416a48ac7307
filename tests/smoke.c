/* The exported calls from C, over document 01's lists F, every height 0, over two sites at one x and y, and over bands. */
#include <stdio.h>
#include <string.h>

#include "vumlintel.h"

static int failures = 0;

#define EXPECT(fact)                                                                                                           \
    do {                                                                                                                       \
        if (!(fact)) {                                                                                                         \
            printf("line %d: not so: %s\n", __LINE__, #fact);                                                                  \
            failures++;                                                                                                        \
        }                                                                                                                      \
    } while (0)

static const int32_t ax[] = {0, 4, 10}, ay[] = {0, 3, 0}, bx[] = {0, 4, 9}, by[] = {5, 0, 2};
static const uint32_t an[] = {11, 12, 13}, bn[] = {21, 22, 23};
static const int32_t ah[] = {0, 0, 0}, bh[] = {0, 0, 0};

/* The lists of the plane, and with their heights. */
#define PLANE_A ax, 3, ay, 3, an, 3
#define PLANE_B bx, 3, by, 3, bn, 3
#define A PLANE_A, ah, 3
#define B PLANE_B, bh, 3

static void check(void)
{
    uint32_t count = 99;
    EXPECT(vumlintel_check(A, &count) == VUMLINTEL_OK && count == 3);
    count = 99;
    EXPECT(vumlintel_check(ax, 3, ay, 2, an, 3, ah, 3, &count) == VUMLINTEL_LIST_SIZE && count == 99);
    EXPECT(vumlintel_check(PLANE_A, ah, 2, &count) == VUMLINTEL_LIST_SIZE && count == 99);
    const int32_t lowest[] = {0, 0, -10000}, lower[] = {0, 0, -10001};
    EXPECT(vumlintel_check(PLANE_A, lower, 3, &count) == VUMLINTEL_LIMITS && count == 99);
    EXPECT(vumlintel_check(PLANE_A, lowest, 3, &count) == VUMLINTEL_OK && count == 3);
}

static void add(void)
{
    uint32_t count = 99, place = 99;
    int32_t x[4] = {0, 4, 10, 77}, y[4] = {0, 3, 0, 77}, height[4] = {1, 2, 3, 77};
    uint32_t number[4] = {11, 12, 13, 77};
#define COLUMNS x, 4, y, 4, number, 4, height, 4
    EXPECT(vumlintel_add(COLUMNS, 3, 4, 3, 5, 10001, &place, &count) == VUMLINTEL_LIMITS && place == 99 && count == 99);
    EXPECT(vumlintel_add(COLUMNS, 3, 4, 3, 5, -8, &place, &count) == VUMLINTEL_OK);
    EXPECT(place == 1 && count == 4);
    EXPECT(x[1] == 4 && y[1] == 3 && number[1] == 5 && number[2] == 12 && number[3] == 13);
    EXPECT(height[0] == 1 && height[1] == -8 && height[2] == 2 && height[3] == 3);
    EXPECT(vumlintel_add(COLUMNS, 4, 4, 3, 5, -8, &place, &count) == VUMLINTEL_ROOM);
    EXPECT(vumlintel_add(COLUMNS, 3, 4, 3, 5, 0, &place, &count) == VUMLINTEL_PRESENT);
}

static void remove_site(void)
{
    uint32_t count = 99, place = 99;
    int32_t x[4] = {0, 4, 10, 7}, y[4] = {0, 3, 0, 7}, height[4] = {1, 2, 3, 7};
    uint32_t number[4] = {11, 12, 13, 7};
    EXPECT(vumlintel_remove(COLUMNS, 3, 0, 0, 12, &place, &count) == VUMLINTEL_ABSENT && place == 99 && count == 99);
    EXPECT(vumlintel_remove(COLUMNS, 3, 1000000001, 0, 11, &place, &count) == VUMLINTEL_ABSENT);
    EXPECT(vumlintel_remove(COLUMNS, 4, 0, 0, 11, &place, &count) == VUMLINTEL_ORDER && place == 99 && count == 99);
    EXPECT(vumlintel_remove(COLUMNS, 3, 0, 0, 11, &place, &count) == VUMLINTEL_OK);
    EXPECT(place == 0 && count == 2);
    EXPECT(x[0] == 4 && x[1] == 10 && x[2] == 10 && x[3] == 7 && y[0] == 3 && y[1] == 0 && y[2] == 0 && y[3] == 7);
    EXPECT(number[0] == 12 && number[1] == 13 && number[2] == 13 && number[3] == 7);
    EXPECT(height[0] == 2 && height[1] == 3 && height[2] == 3 && height[3] == 7);
}

static void k_lists(void)
{
    uint64_t distance[4] = {7, 7, 7, 7}, looks = 0, distances = 0;
    uint32_t first[4] = {7, 7, 7, 7}, second[4] = {7, 7, 7, 7}, entries = 0;
    EXPECT(vumlintel_k_list_classic(A, B, 3, distance, 4, first, 4, second, 4, &entries, &looks, &distances) == VUMLINTEL_OK);
    EXPECT(entries == 3 && looks == 9 && distances == 6);
    EXPECT(distance[0] == 5 && distance[1] == 9 && distance[2] == 16 && distance[3] == 7);
    EXPECT(first[0] == 2 && first[1] == 1 && first[2] == 0 && second[0] == 2 && second[1] == 1 && second[2] == 1);
    EXPECT(vumlintel_k_list_reverse_run(A, B, 3, distance, 4, first, 4, second, 4, &entries, &looks, &distances) ==
           VUMLINTEL_OK);
    EXPECT(entries == 3 && looks == 7 && distances == 5);
    EXPECT(vumlintel_k_list_classic(A, B, 0, distance, 4, first, 4, second, 4, &entries, &looks, &distances) == VUMLINTEL_K);
}

static void halves(void)
{
    uint64_t distance[4] = {7, 7, 7, 7}, range_pairs = 99;
    uint32_t first[4] = {7, 7, 7, 7}, second[4] = {7, 7, 7, 7}, entries = 99;
    EXPECT(vumlintel_k_list_halves(A, B, 3, distance, 2, first, 4, second, 4, &entries, &range_pairs) == VUMLINTEL_ROOM);
    EXPECT(entries == 99 && range_pairs == 99 && distance[0] == 7 && first[0] == 7 && second[0] == 7);
    EXPECT(vumlintel_k_list_halves(A, B, 3, distance, 4, first, 4, second, 4, &entries, &range_pairs) == VUMLINTEL_OK);
    EXPECT(entries == 3 && range_pairs == 15);
    EXPECT(distance[0] == 5 && distance[1] == 9 && distance[2] == 16 && distance[3] == 7);
    EXPECT(first[0] == 2 && first[1] == 1 && first[2] == 0 && second[0] == 2 && second[1] == 1 && second[2] == 1);
}

static void distance_lists(void)
{
    uint32_t first[5], second[5];
    uint64_t count = 0;
    EXPECT(vumlintel_distance_list(A, B, 4, first, 5, second, 5, &count) == VUMLINTEL_OK && count == 3);
    EXPECT(first[0] == 0 && second[0] == 1 && first[1] == 1 && second[1] == 1 && first[2] == 2 && second[2] == 2);
    EXPECT(vumlintel_distance_list(A, B, 5, first, 4, second, 5, &count) == VUMLINTEL_ROOM && count == 3);
}

static void forecasts(void)
{
    uint32_t partners[4] = {7, 7, 7, 7}, first[5], second[5];
    uint64_t total = 9, count = 9;
    EXPECT(vumlintel_forecast(A, B, 4, partners, 2, &total) == VUMLINTEL_ROOM && total == 9 && partners[0] == 7);
    EXPECT(vumlintel_forecast(A, B, 4, partners, 4, &total) == VUMLINTEL_OK && total == 5);
    EXPECT(partners[0] == 2 && partners[1] == 2 && partners[2] == 1 && partners[3] == 7);
    EXPECT(vumlintel_distance_list(A, B, 4, first, total, second, total, &count) == VUMLINTEL_OK && count <= total);
    EXPECT(vumlintel_forecast(A, B, 0, partners, 3, &total) == VUMLINTEL_OK && total == 2);
    EXPECT(partners[0] == 1 && partners[1] == 1 && partners[2] == 0);
}

/* Two sites at one x and y, three apart in height: a pair at 9. */
static void heights(void)
{
    const int32_t zero[] = {0}, three[] = {3};
    const uint32_t number[] = {1};
    uint64_t distance[1] = {0}, looks = 0, distances = 0, count = 9;
    uint32_t first[1] = {7}, second[1] = {7}, entries = 0;
#define LOW zero, 1, zero, 1, number, 1, zero, 1
#define HIGH zero, 1, zero, 1, number, 1, three, 1
    EXPECT(vumlintel_k_list_classic(LOW, HIGH, 1, distance, 1, first, 1, second, 1, &entries, &looks, &distances) ==
           VUMLINTEL_OK);
    EXPECT(entries == 1 && distance[0] == 9 && first[0] == 0 && second[0] == 0);
    EXPECT(vumlintel_k_list_reverse_run(HIGH, HIGH, 1, distance, 1, first, 1, second, 1, &entries, &looks, &distances) ==
           VUMLINTEL_OK);
    EXPECT(entries == 0 && looks == 1 && distances == 1);
    EXPECT(vumlintel_distance_list(HIGH, LOW, 2, first, 1, second, 1, &count) == VUMLINTEL_OK && count == 0);
    EXPECT(vumlintel_distance_list(HIGH, LOW, 3, first, 1, second, 1, &count) == VUMLINTEL_OK && count == 1);
}

/* One grid for two customers: the first works with K 2, the second with K 9, each with columns of their own. */
static void campaigns(void)
{
    const uint32_t first_cuts[] = {2, 3}, second_cuts[] = {1, 3}, other_cuts[] = {2, 3};
    uint64_t distance[2] = {0, 0}, distance2[9] = {0}, looks = 0, distances = 0, range_pairs = 99;
    uint32_t first[2] = {0, 0}, second[2] = {0, 0}, first2[9] = {0}, second2[9] = {0}, swept = 99, settled, jobs, entries, k;
    vumlintel_grid g;
    memset(&g, 0xff, sizeof g);
#define COLUMNS1 distance, 2, first, 2, second, 2
#define COLUMNS2 distance2, 9, first2, 9, second2, 9
    EXPECT(sizeof(vumlintel_grid) == 1304);
    EXPECT(vumlintel_prepare(A, B, first_cuts, 1, second_cuts, 2, VUMLINTEL_PARTS(&g)) == VUMLINTEL_CUT_ENDS);
    EXPECT(g.first_strips == UINT32_MAX && g.marks[1023] == 255 && g.entries2 == UINT32_MAX);
    EXPECT(vumlintel_prepare(A, B, first_cuts, 2, second_cuts, 2, VUMLINTEL_PARTS(&g)) == VUMLINTEL_OK);
    EXPECT(g.first_strips == 2 && g.second_strips == 2 && g.first_ends[0] == 2 && g.first_ends[1] == 3 && g.first_ends[2] == 0);
    EXPECT(g.second_ends[0] == 1 && g.second_ends[1] == 3 && g.second_ends[31] == 0);
    EXPECT(g.marks[0] == 0 && g.marks[1023] == 0 && g.k1 == 0 && g.entries1 == 0 && g.k2 == 0 && g.entries2 == 0);
    EXPECT(vumlintel_status(VUMLINTEL_PARTS(&g), 1, A, B, COLUMNS1, &settled, &jobs, &entries, &k) == VUMLINTEL_CAMPAIGN);
    EXPECT(vumlintel_open(VUMLINTEL_PARTS(&g), 3, A, B, 2, first_cuts, 2, second_cuts, 2, COLUMNS1) == VUMLINTEL_CUSTOMER);
    EXPECT(vumlintel_open(VUMLINTEL_PARTS(&g), 1, A, B, 2, first_cuts, 2, other_cuts, 2, COLUMNS1) == VUMLINTEL_CUT_ENDS);
    EXPECT(g.k1 == 0);
    EXPECT(vumlintel_open(VUMLINTEL_PARTS(&g), 1, A, B, 2, first_cuts, 2, second_cuts, 2, COLUMNS1) == VUMLINTEL_OK);
    EXPECT(g.k1 == 2 && g.k2 == 0);
    EXPECT(vumlintel_job_classic(VUMLINTEL_PARTS(&g), 1, A, B, COLUMNS1, 0, 0, &swept, &looks, &distances) == VUMLINTEL_OK &&
           swept == 1);
    EXPECT(vumlintel_job_classic(VUMLINTEL_PARTS(&g), 1, A, B, COLUMNS1, 0, 0, &swept, &looks, &distances) ==
           VUMLINTEL_SETTLED);
    EXPECT(vumlintel_job_reverse_run(VUMLINTEL_PARTS(&g), 1, A, B, COLUMNS1, 1, 0, &swept, &looks, &distances) ==
               VUMLINTEL_OK &&
           swept == 0 && looks == 0 && distances == 0);
    EXPECT(vumlintel_status(VUMLINTEL_PARTS(&g), 1, A, B, COLUMNS1, &settled, &jobs, &entries, &k) == VUMLINTEL_OK);
    EXPECT(settled == 2 && jobs == 4 && entries == 2 && k == 2 && g.marks[0] == 1 && g.marks[32] == 1 && g.marks[1] == 0);
    EXPECT(vumlintel_job_halves(VUMLINTEL_PARTS(&g), 2, A, B, COLUMNS2, 1, 0, &swept, &range_pairs) == VUMLINTEL_CAMPAIGN);
    EXPECT(vumlintel_open(VUMLINTEL_PARTS(&g), 2, A, B, 9, first_cuts, 2, second_cuts, 2, COLUMNS2) == VUMLINTEL_OK);
    EXPECT(g.k1 == 2 && g.entries1 == 2 && g.k2 == 9 && g.entries2 == 0 && g.marks[0] == 1 && g.marks[32] == 1);
    EXPECT(vumlintel_job_halves(VUMLINTEL_PARTS(&g), 2, A, B, COLUMNS2, 1, 0, &swept, &range_pairs) == VUMLINTEL_OK &&
           swept == 1 && range_pairs == 1 && g.marks[32] == 3 && g.entries2 == 1 && distance2[0] == 125);
    EXPECT(vumlintel_status(VUMLINTEL_PARTS(&g), 2, A, B, COLUMNS2, &settled, &jobs, &entries, &k) == VUMLINTEL_OK);
    EXPECT(settled == 1 && jobs == 4 && entries == 1 && k == 9);
    range_pairs = 99;
    EXPECT(vumlintel_job_halves(VUMLINTEL_PARTS(&g), 1, A, B, COLUMNS1, 1, 0, &swept, &range_pairs) == VUMLINTEL_SETTLED &&
           swept == 1 && range_pairs == 99);
    EXPECT(vumlintel_job_halves(VUMLINTEL_PARTS(&g), 1, A, B, COLUMNS1, 0, 1, &swept, &range_pairs) == VUMLINTEL_OK &&
           swept == 1 && range_pairs == 7);
    EXPECT(g.marks[1] == 1 && g.entries1 == 2 && distance[0] == 9 && distance[1] == 16);
    EXPECT(first[0] == 1 && second[0] == 1 && first[1] == 0 && second[1] == 1);
}

/* A smaller K: M6's campaign, opened with K 9 by customer 2 and lowered to 2 after the first job. */
static void smaller_k(void)
{
    const uint32_t first_cuts[] = {2, 3}, second_cuts[] = {1, 3};
    uint64_t distance2[9] = {0}, looks = 99, distances = 99, range_pairs = 99;
    uint32_t first2[9] = {0}, second2[9] = {0}, swept = 99, settled, jobs, entries, k;
    vumlintel_grid g, before;
    EXPECT(vumlintel_prepare(A, B, first_cuts, 2, second_cuts, 2, VUMLINTEL_PARTS(&g)) == VUMLINTEL_OK);
    EXPECT(vumlintel_lower_k(VUMLINTEL_PARTS(&g), 2, A, B, 1, COLUMNS2) == VUMLINTEL_K && g.k2 == 0);
    EXPECT(vumlintel_open(VUMLINTEL_PARTS(&g), 2, A, B, 9, first_cuts, 2, second_cuts, 2, COLUMNS2) == VUMLINTEL_OK);
    EXPECT(vumlintel_job_halves(VUMLINTEL_PARTS(&g), 2, A, B, COLUMNS2, 0, 0, &swept, &range_pairs) == VUMLINTEL_OK);
    EXPECT(g.entries2 == 2 && distance2[0] == 20 && distance2[1] == 25);
    g.k1 = 4;
    before = g;
    EXPECT(vumlintel_lower_k(VUMLINTEL_PARTS(&g), 0, A, B, 2, COLUMNS2) == VUMLINTEL_CUSTOMER);
    EXPECT(vumlintel_lower_k(VUMLINTEL_PARTS(&g), 2, ax, 2, ay, 3, an, 3, ah, 3, B, 2, COLUMNS2) == VUMLINTEL_LIST_SIZE);
    EXPECT(vumlintel_lower_k(VUMLINTEL_PARTS(&g), 2, A, B, 0, COLUMNS2) == VUMLINTEL_K);
    EXPECT(vumlintel_lower_k(VUMLINTEL_PARTS(&g), 2, A, B, 10, COLUMNS2) == VUMLINTEL_K);
    EXPECT(vumlintel_lower_k(VUMLINTEL_PARTS(&g), 2, A, B, 2, distance2, 8, first2, 9, second2, 9) == VUMLINTEL_CAMPAIGN);
    EXPECT(memcmp(&g, &before, sizeof g) == 0);
    EXPECT(vumlintel_lower_k(VUMLINTEL_PARTS(&g), 2, A, B, 9, COLUMNS2) == VUMLINTEL_OK && memcmp(&g, &before, sizeof g) == 0);
    EXPECT(vumlintel_lower_k(VUMLINTEL_PARTS(&g), 2, A, B, 2, COLUMNS2) == VUMLINTEL_OK);
    before.k2 = 2;
    EXPECT(memcmp(&g, &before, sizeof g) == 0 && distance2[0] == 20 && distance2[1] == 25);
    EXPECT(vumlintel_job_classic(VUMLINTEL_PARTS(&g), 2, A, B, COLUMNS2, 1, 0, &swept, &looks, &distances) == VUMLINTEL_OK &&
           swept == 0 && looks == 0 && distances == 0);
    EXPECT(vumlintel_lower_k(VUMLINTEL_PARTS(&g), 2, A, B, 1, COLUMNS2) == VUMLINTEL_OK && g.k1 == 4);
    EXPECT(g.k2 == 1 && g.entries2 == 1 && distance2[1] == 25 && first2[1] == 0 && second2[1] == 0);
    EXPECT(vumlintel_status(VUMLINTEL_PARTS(&g), 2, A, B, COLUMNS2, &settled, &jobs, &entries, &k) == VUMLINTEL_OK);
    EXPECT(settled == 2 && jobs == 4 && entries == 1 && k == 1);
}

/* Several jobs: M6's campaign in one call, by customer 2, the third job by halves, and refused calls before it. */
static void several_jobs(void)
{
    const uint32_t first_cuts[] = {2, 3}, second_cuts[] = {1, 3};
    const uint32_t job_first[] = {0, 1, 0, 1, 0}, job_second[] = {0, 0, 1, 1, 0}, job_way[] = {0, 1, 2, 0, 3};
    uint64_t distance[3] = {7, 7, 7}, looks = 99, distances = 99, range_pairs = 99;
    uint32_t first[3] = {7, 7, 7}, second[3] = {7, 7, 7}, skipped = 99, settled, jobs, entries, k;
    vumlintel_grid g, before;
#define COLUMNS3 distance, 3, first, 3, second, 3
#define ROWS(n) job_first, n, job_second, n, job_way, n
#define SUMS &skipped, &looks, &distances, &range_pairs
    EXPECT(vumlintel_prepare(A, B, first_cuts, 2, second_cuts, 2, VUMLINTEL_PARTS(&g)) == VUMLINTEL_OK);
    EXPECT(vumlintel_jobs(VUMLINTEL_PARTS(&g), 2, A, B, COLUMNS3, ROWS(4), SUMS) == VUMLINTEL_CAMPAIGN);
    EXPECT(vumlintel_open(VUMLINTEL_PARTS(&g), 2, A, B, 2, first_cuts, 2, second_cuts, 2, COLUMNS3) == VUMLINTEL_OK);
    g.marks[0] = 1;
    before = g;
    EXPECT(vumlintel_jobs(VUMLINTEL_PARTS(&g), 3, A, B, COLUMNS3, ROWS(4), SUMS) == VUMLINTEL_CUSTOMER);
    EXPECT(vumlintel_jobs(VUMLINTEL_PARTS(&g), 2, A, bx, 2, by, 3, bn, 3, bh, 3, COLUMNS3, ROWS(4), SUMS) ==
           VUMLINTEL_LIST_SIZE);
    EXPECT(vumlintel_jobs(VUMLINTEL_PARTS(&g), 2, A, B, COLUMNS3, job_first, 4, job_second, 3, job_way, 4, SUMS) ==
           VUMLINTEL_RANGE);
    EXPECT(vumlintel_jobs(VUMLINTEL_PARTS(&g), 2, A, B, COLUMNS3, ROWS(5), SUMS) == VUMLINTEL_RANGE);
    EXPECT(vumlintel_jobs(VUMLINTEL_PARTS(&g), 2, A, B, COLUMNS3, job_first, 5, job_second, 5, job_first, 5, SUMS) ==
           VUMLINTEL_SETTLED);
    EXPECT(memcmp(&g, &before, sizeof g) == 0 && skipped == 99 && looks == 99 && distances == 99 && range_pairs == 99);
    EXPECT(distance[0] == 7 && first[0] == 7 && second[0] == 7);
    EXPECT(vumlintel_jobs(VUMLINTEL_PARTS(&g), 2, A, B, COLUMNS3, ROWS(4), SUMS) == VUMLINTEL_OK);
    EXPECT(skipped == 1 && looks == 4 && distances == 3 && range_pairs == 7);
    EXPECT(g.marks[0] == 3 && g.marks[1] == 2 && g.marks[32] == 2 && g.marks[33] == 2 && g.k1 == 0 && g.entries2 == 2);
    EXPECT(distance[0] == 5 && distance[1] == 9 && distance[2] == 7 && first[0] == 2 && second[0] == 2);
    EXPECT(first[1] == 1 && second[1] == 1 && first[2] == 7 && second[2] == 7);
    EXPECT(vumlintel_status(VUMLINTEL_PARTS(&g), 2, A, B, COLUMNS3, &settled, &jobs, &entries, &k) == VUMLINTEL_OK);
    EXPECT(settled == 4 && jobs == 4 && entries == 2 && k == 2);
    before = g;
    EXPECT(vumlintel_jobs(VUMLINTEL_PARTS(&g), 2, A, B, COLUMNS3, ROWS(1), SUMS) == VUMLINTEL_SETTLED && skipped == 1);
    EXPECT(vumlintel_jobs(VUMLINTEL_PARTS(&g), 2, A, B, COLUMNS3, ROWS(0), SUMS) == VUMLINTEL_OK);
    EXPECT(skipped == 0 && looks == 0 && distances == 0 && range_pairs == 0 && memcmp(&g, &before, sizeof g) == 0);
}

static void site_files(void)
{
    uint8_t file[100];
    uint32_t length = 0, first = 0, second = 0, number = 0;
    int32_t x = 0, y = 0;
    EXPECT(vumlintel_write_file(PLANE_A, PLANE_B, file, sizeof file, &length) == VUMLINTEL_OK && length == 88);
    EXPECT(vumlintel_read_file(file, 88, &first, &second) == VUMLINTEL_OK && first == 3 && second == 3);
    EXPECT(vumlintel_read_file(file, 87, &first, &second) == VUMLINTEL_FILE);
    EXPECT(vumlintel_file_site_first(file, 88, 1, &x, &y, &number) == VUMLINTEL_OK && x == 4 && y == 3 && number == 12);
    EXPECT(vumlintel_file_site_second(file, 88, 2, &x, &y, &number) == VUMLINTEL_OK && x == 9 && y == 2 && number == 23);
    EXPECT(vumlintel_file_site_second(file, 88, 3, &x, &y, &number) == VUMLINTEL_RANGE);
}

/* A table of two bands edited into a lawful one, and four distances priced from it, at its ends. */
static void bands(void)
{
    const uint64_t distance[] = {0, 99, 100, UINT64_C(2828427125) * 2828427125 - 1, UINT64_MAX};
    vumlintel_band table[] = {{0, 10, 5}, {12, 2828427125, 1}};
    uint32_t prices[] = {77, 77, 77, 77, 77}, edited = 99;
    uint64_t total = 99;
    EXPECT(sizeof(vumlintel_band) == 12);
    EXPECT(vumlintel_price(table, 2, distance, 5, 4, prices, 5, &total) == VUMLINTEL_BAND_GAP);
    EXPECT(vumlintel_edit_band(table, 2, 2, 10, 2828427125, 7, &edited) == VUMLINTEL_RANGE && edited == 99);
    EXPECT(vumlintel_edit_band(table, 2, 1, 9, 2828427125, 1000001, &edited) == VUMLINTEL_OK && edited == 1);
    EXPECT(vumlintel_price(table, 2, distance, 5, 4, prices, 5, &total) == VUMLINTEL_TARIFF);
    EXPECT(vumlintel_edit_band(table, 2, 1, 9, 2828427125, 7, &edited) == VUMLINTEL_OK && edited == 1);
    EXPECT(vumlintel_price(table, 2, distance, 5, 4, prices, 5, &total) == VUMLINTEL_BAND_OVERLAP);
    EXPECT(vumlintel_edit_band(table, 2, 1, 10, 2828427125, 7, &edited) == VUMLINTEL_OK && edited == 1);
    EXPECT(table[0].from == 0 && table[0].to == 10 && table[0].price == 5);
    EXPECT(table[1].from == 10 && table[1].to == 2828427125 && table[1].price == 7);
    EXPECT(vumlintel_price(table, 2, distance, 5, 4, prices, 3, &total) == VUMLINTEL_ROOM);
    EXPECT(vumlintel_price(table, 2, distance, 5, 5, prices, 5, &total) == VUMLINTEL_CAMPAIGN);
    EXPECT(total == 99 && prices[0] == 77);
    EXPECT(vumlintel_price(table, 2, distance, 5, 4, prices, 5, &total) == VUMLINTEL_OK && total == 24);
    EXPECT(prices[0] == 5 && prices[1] == 5 && prices[2] == 7 && prices[3] == 7 && prices[4] == 77);
}

int main(void)
{
    check();
    add();
    remove_site();
    k_lists();
    halves();
    distance_lists();
    forecasts();
    heights();
    campaigns();
    smaller_k();
    several_jobs();
    site_files();
    bands();
    printf("%d failures\n", failures);
    return failures != 0;
}
