/* Rows of the binary kinds as the library libfec decodes them; input and answers are those of decoder.c.

   libfec has the highest power first, and rows are handed to it whole, with 0 in the columns that they do not have. It does
   not look whether what it found is a code row close enough, so that is done here, with its own encoder. */

#include <fec.h>
#include <stdio.h>
#include <stdlib.h>
#include <string.h>

enum { MOST = 256 };

static int number(void) {
    int x;
    if (scanf("%d", &x) != 1) exit(1);
    return x;
}

int main(void) {
    int kind;
    while (scanf("%d", &kind) == 1) {
        int bits = kind == 5 ? 4 : kind == 6 ? 6 : 8, last = (1 << bits) - 2;
        int modulus = kind == 5 ? 0x13 : kind == 6 ? 0x43 : 0x11D;
        int n = number(), r = number(), e = number(), far = e;
        int erased[MOST] = {0};
        unsigned char row[MOST] = {0}, word[MOST], checks[MOST], marked[MOST] = {0};
        void *code = init_rs_char(bits, modulus, 1, 1, r, 0);
        if (code == NULL) return 1;
        for (int i = 0; i < e; i++) marked[erased[i] = last - number()] = 1;
        for (int i = 0; i < n; i++) row[last - i] = number();
        for (int i = 0; i <= last; i++) word[i] = marked[i] ? 0 : row[i];
        int found = decode_rs_char(code, word, erased, e);
        encode_rs_char(code, word, checks);
        for (int i = 0; i <= last; i++)
            if (!marked[i] && word[i] != row[i]) far += i > last - n ? 2 : MOST;
        if (found < 0 || far > r || memcmp(word + last + 1 - r, checks, r) != 0) {
            puts("none");
        } else {
            for (int i = 0; i < n; i++) printf(i == 0 ? "%d" : " %d", word[last - i]);
            puts("");
        }
        free_rs_char(code);
    }
    return 0;
}
