/* What functions of the C library read and write: of strings, memory, numbers in texts, arrays that are sorted. No access
   beyond the marked ones: how far each goes is seen too. */
#define _GNU_SOURCE
#include <inttypes.h>
#include <pthread.h>
#include <stdlib.h>
#include <string.h>
#include <strings.h>
#include <wchar.h>

static char t[80][64];
static wchar_t w[8][16];
static int e[3][16];
static const char *volatile word = "abc";
static volatile size_t two = 2, four = 4, five = 5;
static __thread volatile long total;

static int less(const void *p, const void *q) { return *(const int *)p - *(const int *)q; }
static int less_of(const void *p, const void *q, void *unused) { return less(p, q); }
extern char *__strcpy_chk(char *, const char *, size_t), *__strncat_chk(char *, const char *, size_t, size_t);
extern void *__memcpy_chk(void *, const void *, size_t, size_t), *__memset_chk(void *, int, size_t, size_t);

static void *work(void *unused) {
    total += strlen(t[0]); /* RACE */
    total += strnlen(t[1], four); /* RACE */
    total += strcmp(t[2], "abcd"); /* RACE */
    total += strncmp(t[3], word, two); /* RACE */
    total += strcasecmp(t[4], "aBCd"); /* RACE */
    total += strncasecmp(t[5], word, two); /* RACE */
    total += strchr(t[6], 'b' + !two) != 0; /* RACE */
    total += *strchrnul(t[7], 'c'); /* RACE */
    total += strrchr(t[8], 'b') != 0; /* RACE */
    total += strstr(t[9], word) != 0; /* RACE */
    total += strcasestr(t[10], "BCa") != 0; /* RACE */
    total += strspn(t[11], word); /* RACE */
    total += strcspn(t[12], "xc"); /* RACE */
    total += strpbrk(t[13], "xc") != 0; /* RACE */
    strcpy(t[14], word); /* RACE */
    total += *stpcpy(t[15], word); /* RACE */
    strncpy(t[16], word, five); /* RACE */
    total += *stpncpy(t[17], word, five); /* RACE */
    strcat(t[18], word); /* RACE */
    strncat(t[19], word, two); /* RACE */
    strcpy(t[70], t[20]); /* RACE */
    free(strdup(t[21])); /* RACE */
    free(strndup(t[22], two)); /* RACE */
    total += strtok(t[23], "c")[0]; /* RACE */
    total += strtok_r(t[24], "c", (char **)t[71])[0]; /* RACE */
    total += strcmp(word, t[25]); /* RACE */
    __strcpy_chk(t[26], word, 64); /* RACE */
    __strncat_chk(t[27], word, two, 64); /* RACE */
    __memcpy_chk(t[28], word, two, 64); /* RACE */
    __memset_chk(t[29], 0, two, 64); /* RACE */
    total += memcmp(t[30], word, two); /* RACE */
    total += bcmp(t[31], word, two); /* RACE */
    total += memchr(t[32], 'b', five) != 0; /* RACE */
    total += memchr(t[33], 'x', five) != 0; /* RACE */
    total += rawmemchr(t[34], 'b') != 0; /* RACE */
    total += memrchr(t[35], 'c', five) != 0; /* RACE */
    total += memmem(t[36], five, word, two) != 0; /* RACE */
    total += mempcpy(t[37], word, two) == 0; /* RACE */
    total += mempcpy(t[72], t[38], two) == 0; /* RACE */
    bzero(t[39], two); /* RACE */
    total += strtol(t[60], 0, 10); /* RACE */
    total += strtoull(t[61], (char **)t[73], 10); /* RACE */
    total += strtoimax(t[62], 0, 10); /* RACE */
    total += strtoul(t[74], (char **)t[63], 10); /* RACE */
    total += wcslen(w[0]); /* RACE */
    total += wcsnlen(w[1], two); /* RACE */
    free(wcsdup(w[2])); /* RACE */
    wcscat(w[3], L"abc"); /* RACE */
    wcsncat(w[4], L"abc", two); /* RACE */
    qsort(e[0], 16, sizeof(int), less); /* RACE */
    qsort_r(e[1], 16, sizeof(int), less_of, 0); /* RACE */
    qsort(e[2], 1, sizeof(int), less);
    return 0;
}

int main(void) {
    pthread_t other;
    for (int i = 0; i < 80; i++) strcpy(t[i], i < 60 ? "abcabc" : "123x");
    for (int i = 0; i < 8; i++) wcscpy(w[i], L"abcabc");
    for (int i = 0; i < 48; i++) e[i / 16][i % 16] = 16 - i;
    pthread_create(&other, 0, work, 0);
    t[0][6] = 0; /* RACE */
    t[1][3] = 'a'; /* RACE */
    t[1][4] = 'b';
    t[2][3] = 'a'; /* RACE */
    t[2][4] = 'b';
    t[3][1] = 'b'; /* RACE */
    t[3][2] = 'c';
    t[4][3] = 'a'; /* RACE */
    t[4][4] = 'b';
    t[5][1] = 'b'; /* RACE */
    t[5][2] = 'c';
    t[6][1] = 'b'; /* RACE */
    t[6][2] = 'c';
    t[7][2] = 'c'; /* RACE */
    t[7][3] = 'a';
    t[8][5] = 'c'; /* RACE */
    t[9][2] = 'c'; /* RACE */
    t[9][3] = 'a';
    t[10][3] = 'a'; /* RACE */
    t[10][4] = 'b';
    t[11][6] = 0; /* RACE */
    t[12][2] = 'c'; /* RACE */
    t[12][3] = 'a';
    t[13][2] = 'c'; /* RACE */
    t[13][3] = 'a';
    total += t[14][3]; /* RACE */
    total += t[14][4];
    total += t[15][3]; /* RACE */
    total += t[15][4];
    total += t[16][4]; /* RACE */
    total += t[16][5];
    total += t[17][4]; /* RACE */
    total += t[17][5];
    total += t[18][9]; /* RACE */
    total += t[18][10];
    total += t[19][8]; /* RACE */
    total += t[19][9];
    t[20][6] = 0; /* RACE */
    t[21][6] = 0; /* RACE */
    t[22][1] = 'b'; /* RACE */
    t[22][2] = 'c';
    t[23][1] = 'b'; /* RACE */
    total += t[24][2]; /* RACE */
    total += t[24][3];
    t[25][0] = 'a'; /* RACE */
    total += t[26][3]; /* RACE */
    total += t[26][4];
    total += t[27][8]; /* RACE */
    total += t[27][9];
    total += t[28][1]; /* RACE */
    total += t[28][2];
    total += t[29][1]; /* RACE */
    total += t[29][2];
    t[30][1] = 'b'; /* RACE */
    t[30][2] = 'c';
    t[31][1] = 'b'; /* RACE */
    t[31][2] = 'c';
    t[32][1] = 'b'; /* RACE */
    t[32][2] = 'c';
    t[33][4] = 'b'; /* RACE */
    t[33][5] = 'c';
    t[34][1] = 'b'; /* RACE */
    t[34][2] = 'c';
    t[35][4] = 'b'; /* RACE */
    t[35][1] = 'b';
    t[36][1] = 'b'; /* RACE */
    t[36][2] = 'c';
    total += t[37][1]; /* RACE */
    total += t[37][2];
    t[38][1] = 'b'; /* RACE */
    t[38][2] = 'c';
    total += t[39][1]; /* RACE */
    total += t[39][2];
    t[60][3] = 'x'; /* RACE */
    t[60][4] = 0;
    t[61][3] = 'x'; /* RACE */
    t[61][4] = 0;
    t[62][3] = 'x'; /* RACE */
    t[62][4] = 0;
    total += t[63][7]; /* RACE */
    total += t[63][8];
    w[0][6] = 0; /* RACE */
    w[1][1] = 'b'; /* RACE */
    w[1][2] = 'c';
    w[2][6] = 0; /* RACE */
    total += w[3][9]; /* RACE */
    total += w[3][10];
    total += w[4][8]; /* RACE */
    total += w[4][9];
    total += e[0][3]; /* RACE */
    total += e[1][15]; /* RACE */
    total += e[2][0];
    pthread_join(other, 0);
    return total == 1;
}
