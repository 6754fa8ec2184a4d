/* Calls both exported functions on right, wrong, damaged and too short cases, and looks that no byte outside the promise changed. */
#include "gijpsando.h"

#include <stdio.h>
#include <string.h>
#include <time.h>

static int failures = 0, runs = 0;

static void expect(int ok, const char *what) {
    runs++;
    if (!ok) {
        failures++;
        printf("FAILED: %s\n", what);
    }
}

/* The file's reply in a buffer of `room` bytes inside a larger one whose other bytes must stay. */
static void file_case(const char *what, const char *file, size_t file_len, size_t room, size_t reply, const char *text) {
    enum { MARGIN = 64, MOST = 512 };
    uint8_t page[MARGIN + MOST + MARGIN], before[sizeof page];
    memset(page, 0xA5, sizeof page);
    memcpy(before, page, sizeof page);
    size_t said = gijpsando_check((const uint8_t *)file, file_len, page + MARGIN, room);
    expect(said == reply, what);
    if (said > GIJPSANDO_LARGEST_REFUSAL) {
        expect(said == strlen(text) && memcmp(page + MARGIN, text, said) == 0, what);
        memcpy(before + MARGIN, page + MARGIN, said);
    }
    expect(memcmp(page, before, sizeof page) == 0, what);
}

static const char RIGHT[] = "kind,p,q,r,k\npoly,2,2,0,3\na,b\n1,1\n2,2\n3,3\nrow\n1\n7\n2\n";
static const char WRONG[] = "kind,p,q,r,k\npoly,2,2,0,3\na,b\n1,1\n2,2\n3,3\nrow\n1\n3\n2\n";
static const char RIGHT_TEXT[] = "kind,p,q,r,k,verdict,output,adders\npoly,2,2,0,3,right,-,4\n";
static const char MIDDLE[] = "kind,p,q,r,k\nmid,2,3,0,3\na,b\n2,3\n1,6\n3,2\nrow\n5\n6\n";
static const char MIDDLE_TEXT[] = "kind,p,q,r,k,verdict,output,adders\nmid,2,3,0,3,right,-,5\n";
static const char SHARED[] = "kind,p,q,r,k\npoly,2,2,0,2\na,b\n3,1\n3,2\nrow\n1\n2\n0\n";
static const char SHARED_TEXT[] = "kind,p,q,r,k,verdict,output,adders\npoly,2,2,0,2,wrong,0,1\n";
static const char WRONG_TEXT[] = "kind,p,q,r,k,verdict,output,adders\npoly,2,2,0,3,wrong,1,3\n";

static void files(void) {
    size_t n = strlen(RIGHT_TEXT);
    file_case("right", RIGHT, strlen(RIGHT), 512, n, RIGHT_TEXT);
    file_case("right, just room", RIGHT, strlen(RIGHT), n, n, RIGHT_TEXT);
    for (size_t room = 0; room < n; room++) file_case("too short", RIGHT, strlen(RIGHT), room, 9, "");
    file_case("wrong", WRONG, strlen(WRONG), 256, strlen(WRONG_TEXT), WRONG_TEXT);
    file_case("middle product", MIDDLE, strlen(MIDDLE), 256, strlen(MIDDLE_TEXT), MIDDLE_TEXT);
    file_case("one sum for two products", SHARED, strlen(SHARED), 256, strlen(SHARED_TEXT), SHARED_TEXT);
    file_case("empty", "", 0, 256, 1, "");
    file_case("kind", "kind,p,q,r,k\nlist,2,2,1,3\n", 26, 256, 2, "");
    file_case("sizes", "kind,p,q,r,k\npoly,9,8,0,3\n", 26, 256, 3, "");
    file_case("middle product of other sizes", "kind,p,q,r,k\nmid,2,4,0,3\n", 25, 256, 3, "");
    /* each beginning of the file is refused by 1 or 5, and a damaged byte never makes it right */
    for (size_t cut = 0; cut < strlen(RIGHT); cut++) file_case("cut", RIGHT, cut, 256, cut < 26 ? 1 : 5, "");
    file_case("zero factor", "kind,p,q,r,k\npoly,1,1,0,1\na,b\n0,1\nrow\n1\n", 40, 256, 7, "");
    file_case("bit outside", "kind,p,q,r,k\npoly,1,1,0,1\na,b\n1,2\nrow\n1\n", 40, 256, 6, "");
}

static void numbers_case(const char *what, uint64_t kind, uint64_t p, uint64_t q, uint64_t r, uint64_t k, const uint64_t *a, size_t a_len,
                         const uint64_t *b, size_t b_len, const uint64_t *rows, size_t rows_len, size_t room, uint64_t said, uint64_t verdict,
                         uint64_t output, uint64_t adders) {
    uint64_t words[8] = {77, 77, 77, 77, 77, 77, 77, 77};
    uint64_t reply = gijpsando_check_numbers(kind, p, q, r, k, a, a_len, b, b_len, rows, rows_len, words + 1, room);
    expect(reply == said, what);
    int wrote = said == 0;
    expect(words[0] == 77 && words[4] == 77 && words[5] == 77, what);
    expect(words[1] == (wrote ? verdict : 77) && words[2] == (wrote ? output : 77) && words[3] == (wrote ? adders : 77), what);
}

static void numbers(void) {
    const uint64_t m[3] = {1, 2, 3}, right[3] = {1, 7, 2}, wrong[3] = {1, 3, 2}, wide[3] = {1, 8, 2}, zero[3] = {1, 0, 3};
    numbers_case("right", 0, 2, 2, 0, 3, m, 3, m, 3, right, 3, 3, 0, 0, 0, 4);
    numbers_case("right, more room", 0, 2, 2, 0, 3, m, 3, m, 3, right, 3, 4, 0, 0, 0, 4);
    numbers_case("wrong", 0, 2, 2, 0, 3, m, 3, m, 3, wrong, 3, 3, 0, 1, 1, 3);
    numbers_case("list", 4, 2, 2, 0, 3, m, 3, m, 3, right, 3, 3, 2, 0, 0, 0);
    numbers_case("unknown", 6, 2, 2, 0, 3, m, 3, m, 3, right, 3, 3, 2, 0, 0, 0);
    numbers_case("sizes", 0, 9, 8, 0, 3, m, 3, m, 3, right, 3, 3, 3, 0, 0, 0);
    numbers_case("length", 0, 2, 2, 0, 3, m, 2, m, 3, right, 3, 3, 5, 0, 0, 0);
    numbers_case("rows", 0, 2, 2, 0, 3, m, 3, m, 3, right, 2, 3, 5, 0, 0, 0);
    numbers_case("wide row", 0, 2, 2, 0, 3, m, 3, m, 3, wide, 3, 3, 6, 0, 0, 0);
    numbers_case("zero", 0, 2, 2, 0, 3, zero, 3, m, 3, right, 3, 3, 7, 0, 0, 0);
    const uint64_t left[3] = {2, 1, 3}, second[3] = {3, 6, 2}, middle[2] = {5, 6}, upper[2] = {5, 4};
    numbers_case("middle product", GIJPSANDO_MID, 2, 3, 0, 3, left, 3, second, 3, middle, 2, 3, 0, 0, 0, 5);
    numbers_case("wrong middle product", GIJPSANDO_MID, 2, 3, 0, 3, left, 3, second, 3, upper, 2, 3, 0, 1, 1, 4);
    numbers_case("middle product of 2 by 4", GIJPSANDO_MID, 2, 4, 0, 3, left, 3, second, 3, middle, 2, 3, 3, 0, 0, 0);
    /* 2 p - 1 would be 1 if it left 64 bits */
    numbers_case("huge middle product", GIJPSANDO_MID, (1ull << 63) + 1, 1, 0, 3, left, 3, second, 3, middle, 2, 3, 3, 0, 0, 0);
    /* equal masks of a side are one sum; a mask on both sides is two, and every row counts */
    const uint64_t threes[4] = {3, 3, 3, 3}, units[3] = {1, 2, 3}, four_a[4] = {1, 3, 3, 3}, four_b[4] = {3, 1, 3, 2}, none[3] = {0, 0, 0};
    const uint64_t one_two[3] = {1, 2, 0}, three_none[3] = {3, 0, 0}, equal_rows[3] = {3, 3, 3}, four_rows[3] = {0, 15, 3}, three_rows[3] = {1, 4, 2};
    numbers_case("3,1 and 3,2", 0, 2, 2, 0, 2, threes, 2, units, 2, one_two, 3, 3, 0, 1, 0, 1);
    numbers_case("1,3 and 2,3", 0, 2, 2, 0, 2, units, 2, threes, 2, one_two, 3, 3, 0, 1, 0, 1);
    numbers_case("3,3 twice", 0, 2, 2, 0, 2, threes, 2, threes, 2, three_none, 3, 3, 0, 1, 0, 3);
    numbers_case("equal rows", 0, 2, 2, 0, 2, units, 2, units, 2, equal_rows, 3, 3, 0, 1, 0, 3);
    numbers_case("four products", 0, 2, 2, 0, 4, four_a, 4, four_b, 4, four_rows, 3, 3, 0, 1, 0, 6);
    numbers_case("three products", 0, 2, 2, 0, 3, threes, 3, units, 3, three_rows, 3, 3, 0, 1, 0, 2);
    numbers_case("3 on both sides", 0, 2, 2, 0, 1, threes, 1, threes, 1, none, 3, 3, 0, 1, 0, 2);
    for (size_t room = 0; room < 3; room++) numbers_case("short reply", 0, 2, 2, 0, 3, m, 3, m, 3, right, 3, room, 9, 0, 0, 0);
}

/* The time of one Check of the schoolbook formula for poly 8,8, which has 64 products. */
static void speed(void) {
    uint64_t a[64], b[64], rows[15] = {0}, reply[3];
    for (unsigned i = 0; i < 64; i++) {
        a[i] = 1ull << (i / 8);
        b[i] = 1ull << (i % 8);
        rows[i / 8 + i % 8] |= 1ull << i;
    }
    enum { TIMES = 20000 };
    clock_t start = clock();
    uint64_t sum = 0;
    for (int i = 0; i < TIMES; i++) sum += gijpsando_check_numbers(0, 8, 8, 0, 64, a, 64, b, 64, rows, 15, reply, 3) + reply[0];
    double us = (double)(clock() - start) * 1e6 / CLOCKS_PER_SEC / TIMES;
    expect(sum == 0 && reply[2] == 49, "poly 8,8");
    printf("one Check of 64 products: %.1f us\n", us);
}

int main(void) {
    files();
    numbers();
    speed();
    printf("C: %d checks, %d failed\n", runs, failures);
    return failures != 0;
}
