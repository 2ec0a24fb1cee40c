/* A table of many structures, and a variable with tables in it, whose elements two threads write. */
#include <pthread.h>
#include <string.h>
enum { MANY = 100000, ROWS = 4, WIDE = 5000 };
struct { long id; struct { int x, y; } at; short parts[3]; } table[MANY];
struct { long count; int rows[ROWS][WIDE], pairs[3][2]; char tail[8]; } both;
static void *work(void *unused) {
    for (int k = 0; k < MANY; k++) table[k].at.y = table[k].parts[1] = 1;
    for (int k = 0; k < ROWS * WIDE; k++) both.rows[k / WIDE][k % WIDE] = 1;
    for (int k = 0; k < 3; k++) *(volatile long *)both.pairs[k] = 1;
    both.tail[3] = both.count = 1;
    return 0;
}
int main(void) {
    pthread_t t;
    pthread_create(&t, 0, work, 0);
    work(0);
    pthread_join(t, 0);
}
