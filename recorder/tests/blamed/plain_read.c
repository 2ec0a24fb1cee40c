#include <pthread.h>
#include <stdatomic.h>
#include <stdio.h>
#include <stdlib.h>
#include <unistd.h>
static _Atomic long n;
static void *add(void *u) { for (int i = 0; i < 9; i++) { n++; usleep(5); } return u; }
static void *show(void *u) { long sum = 0; for (int i = 0; i < 9; i++) { usleep(5);
    sum += *(volatile long *)(void *)&n; /* BLAME */
    } printf("%ld\n", sum); return u; }
int main(void) { pthread_t a, b;  pthread_create(&a, 0, add, 0); pthread_create(&b, 0, show, 0); pthread_join(a, 0); pthread_join(b, 0); return 0; }
