/* An independent Reed-Solomon decoder for rows of the binary kinds, by other methods than the library's: products by shifts,
   the locator by Euclid's algorithm (Sugiyama's decoder), the values by elimination. It has no tables and is made to be plain.

   Each line of standard input is a row: KIND N R E, the E marked columns, the N symbols. The answer is the code row that is
   close enough (twice the unmarked columns that differ, plus E, is at most R), or `none`. */

#include <stdio.h>
#include <stdlib.h>
#include <string.h>

enum { MOST = 256, PLACES = 130 };

static int order, modulus, n, r, e;
static int marked[MOST], row[MOST], point[MOST];

static int times(int a, int b) {
    int product = 0;
    for (; b != 0; b >>= 1) {
        if (b & 1) product ^= a;
        a <<= 1;
        if (a & order) a ^= modulus;
    }
    return product;
}

static int to_the(int a, int exponent) {
    int result = 1;
    for (int i = 0; i < exponent; i++) result = times(result, a);
    return result;
}

static int inverse(int a) { return to_the(a, order - 2); }

static int degree(const int *p) {
    int d = PLACES - 1;
    while (d >= 0 && p[d] == 0) d--;
    return d;
}

static int value(const int *p, int x) {
    int sum = 0;
    for (int i = degree(p); i >= 0; i--) sum = times(sum, x) ^ p[i];
    return sum;
}

/* p becomes p + c x^k q */
static void add_multiple(int *p, int c, int k, const int *q) {
    for (int i = 0; i + k < PLACES; i++) p[i + k] ^= times(c, q[i]);
}

/* p becomes p times 1 - a x */
static void times_root(int *p, int a) {
    for (int i = PLACES - 1; i > 0; i--) p[i] ^= times(a, p[i - 1]);
}

static int syndrome(const int *symbols, int j) {
    int sum = 0;
    for (int i = 0; i < n; i++) sum ^= times(symbols[i], to_the(point[i], j));
    return sum;
}

/* The locator of the unmarked errors, by division until the rest is short enough. */
static void locate(const int *syndromes, int *locator) {
    int before[PLACES] = {0}, rest[PLACES] = {0}, earlier[PLACES] = {0};
    memset(locator, 0, PLACES * sizeof *locator);
    before[r] = 1;
    locator[0] = 1;
    memcpy(rest, syndromes, sizeof rest);
    for (int i = 0; i < e; i++) times_root(rest, point[marked[i]]);
    for (int i = r; i < PLACES; i++) rest[i] = 0;
    while (2 * degree(rest) >= r + e) {
        int scale = inverse(rest[degree(rest)]);
        int spare[PLACES];
        while (degree(before) >= degree(rest)) {
            int k = degree(before) - degree(rest), c = times(before[degree(before)], scale);
            add_multiple(before, c, k, rest);
            add_multiple(earlier, c, k, locator);
        }
        memcpy(spare, before, sizeof spare), memcpy(before, rest, sizeof spare), memcpy(rest, spare, sizeof spare);
        memcpy(spare, earlier, sizeof spare), memcpy(earlier, locator, sizeof spare), memcpy(locator, spare, sizeof spare);
    }
}

/* Takes from the damaged columns what makes all syndromes 0; says whether that can be. */
static int take_away(const int *syndromes, const int *damaged, int count, int *symbols) {
    int lines[64][65], used = 0;
    for (int j = 0; j < r; j++) {
        for (int k = 0; k < count; k++) lines[j][k] = to_the(point[damaged[k]], j + 1);
        lines[j][count] = syndromes[j];
    }
    for (int k = 0; k < count; k++, used++) {
        int pivot = used;
        while (pivot < r && lines[pivot][k] == 0) pivot++;
        if (pivot == r) return 0;
        for (int m = 0; m <= count; m++) {
            int spare = lines[pivot][m];
            lines[pivot][m] = lines[used][m], lines[used][m] = spare;
        }
        int scale = inverse(lines[used][k]);
        for (int m = 0; m <= count; m++) lines[used][m] = times(lines[used][m], scale);
        for (int j = 0; j < r; j++)
            if (j != used)
                for (int m = count, c = lines[j][k]; m >= k; m--) lines[j][m] ^= times(c, lines[used][m]);
    }
    for (int k = 0; k < count; k++) symbols[damaged[k]] ^= lines[k][count];
    return 1;
}

static int is_marked(int column) {
    for (int i = 0; i < e; i++)
        if (marked[i] == column) return 1;
    return 0;
}

/* Corrects the symbols; says whether a code row is close enough. */
static int decode(int *symbols) {
    int syndromes[PLACES] = {0}, locator[PLACES], damaged[MOST], count = e, far = e;
    for (int i = 0; i < e; i++) symbols[marked[i]] = 0, damaged[i] = marked[i];
    for (int j = 0; j < r; j++) syndromes[j] = syndrome(symbols, j + 1);
    locate(syndromes, locator);
    for (int i = 0; i < n; i++)
        if (!is_marked(i) && value(locator, inverse(point[i])) == 0) damaged[count++] = i;
    if (2 * count - e > r || !take_away(syndromes, damaged, count, symbols)) return 0;
    for (int j = 0; j < r; j++)
        if (syndrome(symbols, j + 1) != 0) return 0;
    for (int i = 0; i < n; i++)
        if (!is_marked(i) && symbols[i] != row[i]) far += 2;
    return far <= r;
}

static int number(void) {
    int x;
    if (scanf("%d", &x) != 1) exit(1);
    return x;
}

int main(void) {
    int kind;
    while (scanf("%d", &kind) == 1) {
        order = kind == 5 ? 16 : kind == 6 ? 64 : 256;
        modulus = kind == 5 ? 0x13 : kind == 6 ? 0x43 : 0x11D;
        n = number(), r = number(), e = number();
        if (n >= order || r > 64 || r >= n || e > r) return 1;
        for (int i = 0; i < e; i++) marked[i] = number();
        for (int i = 0; i < n; i++) row[i] = number(), point[i] = to_the(2, i);
        int symbols[MOST];
        memcpy(symbols, row, sizeof symbols);
        if (!decode(symbols)) {
            puts("none");
            continue;
        }
        for (int i = 0; i < n; i++) printf(i == 0 ? "%d" : " %d", symbols[i]);
        puts("");
    }
    return 0;
}
