#include <pthread.h>
#include <stdatomic.h>
#include <stdio.h>
#include <stdlib.h>
#include <unistd.h>
static pthread_rwlock_t rw = PTHREAD_RWLOCK_INITIALIZER;
static long table;
static void *writer(void *u) { for (int i = 0; i < 9; i++) { pthread_rwlock_wrlock(&rw);
    table = i;
    pthread_rwlock_unlock(&rw); usleep(9); pthread_rwlock_rdlock(&rw);
    if (table == 77) puts("?");
    pthread_rwlock_unlock(&rw); } return u; }
static void *reader(void *u) { for (int i = 0; i < 9; i++) { usleep(7);
    if (table == 78) puts("?"); /* BLAME */
    } return u; }
int main(void) { pthread_t a, b;  pthread_create(&a, 0, writer, 0); pthread_create(&b, 0, reader, 0); pthread_join(a, 0); pthread_join(b, 0); return 0; }
