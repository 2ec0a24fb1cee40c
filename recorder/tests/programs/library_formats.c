/* What formatted output and input of the C library read and write, by their formats. */
#define _GNU_SOURCE
#include <pthread.h>
#include <stdarg.h>
#include <stdio.h>
#include <stdlib.h>
#include <string.h>
#include <wchar.h>

static char t[40][64];
static wchar_t w[16];
static signed char small[8];
static int n[16];
static char *p[4];
static double d[4];
static const char *volatile word = "abc";
static volatile int three = 3;
static volatile size_t two = 2;
static FILE *nowhere, *numbers;
static __thread volatile long total;

static void prints(char *s, const char *format, ...) {
    va_list more;
    va_start(more, format);
    vsnprintf(s, 64, format, more); /* RACE */
    va_end(more);
}
static void scans(const char *s, const char *format, ...) {
    va_list more;
    va_start(more, format);
    vsscanf(s, format, more); /* RACE */
    va_end(more);
}
extern int __sprintf_chk(char *, int, size_t, const char *, ...), __snprintf_chk(char *, size_t, int, size_t, const char *, ...);

static void *work(void *unused) {
    sprintf(t[0], "%dx", three); /* RACE */
    total += snprintf(t[1], three, "%d", 12345); /* RACE */
    total += snprintf(0, 0, "%s", t[2]); /* RACE */
    total += snprintf(0, 0, "%.2s%.*s", t[3], three, t[3]); /* RACE */
    total += snprintf(0, 0, "%*d %-+5.1f %Lf %c %% %p %hhd %zu %m %s", three, 1, 1.5, 1.5L, 'c', t, 1, two, t[4]); /* RACE */
    total += snprintf(t[30], 64, "%s%hn", word, (short *)t[5]); /* RACE */
    total += snprintf(0, 0, "%d%s%s", three, "x", t[6]); /* RACE */
    total += snprintf(0, 0, "%.2ls", w); /* RACE */
    total += asprintf(&p[0], "%d", three); /* RACE */
    prints(t[10], "%d", three);
    fprintf(nowhere, "%s", t[11]); /* RACE */
    dprintf(-1, "%s", t[12]); /* RACE */
    printf("%.1s\n", t[13]); /* RACE */
    __sprintf_chk(t[14], 0, 64, "%dx", three); /* RACE */
    __snprintf_chk(t[15], three, 0, 64, "%d", 12345); /* RACE */
    total += sscanf(t[16], "%d", &n[0]); /* RACE */
    total += sscanf("7 8", "%d %hhd", &n[2], &small[2]); /* RACE */
    total += sscanf("7 8", "%*d %hhd", &small[5]); /* RACE */
    total += sscanf("x12y", "x%[0-9]", t[17]); /* RACE */
    total += sscanf("abcdef", "%3c", t[18]); /* RACE */
    total += sscanf("abc def", "%s", t[19]); /* RACE */
    total += sscanf("1.5 2.5", "%lf %f", &d[0], (float *)&d[1]); /* RACE */
    total += sscanf("7 abc", "%d%n", &n[4], &n[5]); /* RACE */
    total += sscanf("7 abc", "%d x%n", &n[6], &n[7]); /* RACE */
    total += sscanf("7 abc", "%d %d", &n[8], &n[9]); /* RACE */
    total += sscanf("abc", "%ms", &p[1]); /* RACE */
    scans("7", "%d", &n[10]);
    total += fscanf(numbers, "%d", &n[11]); /* RACE */
    return 0;
}

int main(void) {
    pthread_t other;
    for (int i = 0; i < 40; i++) strcpy(t[i], "12345 abc");
    wcscpy(w, L"abcabc");
    nowhere = fopen("/dev/null", "w");
    numbers = fmemopen("12 13", 5, "r");
    pthread_create(&other, 0, work, 0);
    total += t[0][2]; /* RACE */
    total += t[0][3];
    total += t[1][2]; /* RACE */
    total += t[1][3];
    t[2][9] = 0; /* RACE */
    t[3][2] = '3'; /* RACE */
    t[3][3] = '4';
    t[4][0] = '1'; /* RACE */
    total += t[5][1]; /* RACE */
    total += t[5][2];
    t[6][9] = 0; /* RACE */
    w[1] = 'b'; /* RACE */
    w[2] = 'c';
    total += p[0] != 0; /* RACE */
    total += t[10][1]; /* RACE */
    total += t[10][2];
    t[11][9] = 0; /* RACE */
    t[12][9] = 0; /* RACE */
    t[13][0] = '1'; /* RACE */
    t[13][1] = '2';
    total += t[14][2]; /* RACE */
    total += t[14][3];
    total += t[15][2]; /* RACE */
    total += t[15][3];
    t[16][9] = 0; /* RACE */
    total += n[1];
    total += n[2]; /* RACE */
    total += small[3];
    total += small[5]; /* RACE */
    total += small[6];
    total += t[17][2]; /* RACE */
    total += t[17][3];
    total += t[18][2]; /* RACE */
    total += t[18][3];
    total += t[19][3]; /* RACE */
    total += t[19][4];
    total += d[0] > 0; /* RACE */
    total += ((float *)d)[3] > 0;
    total += n[5]; /* RACE */
    total += n[6]; /* RACE */
    total += n[7];
    total += n[8]; /* RACE */
    total += n[9];
    total += p[1] != 0; /* RACE */
    total += n[10]; /* RACE */
    total += n[11]; /* RACE */
    pthread_join(other, 0);
    return total == 1;
}
