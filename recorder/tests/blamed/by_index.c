#include <pthread.h>
#include <stdatomic.h>
#include <stdio.h>
#include <stdlib.h>
#include <unistd.h>
int main(void);
static void *show(void *p) {
    printf("%d\n", *(int *)p);
    return 0; }
int main(void) { pthread_t t[3];
    for (int i = 0; i < 3; i++) /* BLAME */
        pthread_create(&t[i], 0, show, &i);
    for (int k = 0; k < 3; k++) pthread_join(t[k], 0); return 0; }
