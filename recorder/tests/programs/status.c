/* Ends as its first word says, a number or "signal"; with a second word its two threads race before that. */
#include <pthread.h>
#include <signal.h>
#include <stdio.h>
#include <stdlib.h>
#include <string.h>
int shared;
static void *work(void *unused) {
    shared = 1; /* RACE */
    return 0;
}
int main(int count, char **words) {
    pthread_t a, b;
    if (count > 2) {
        pthread_create(&a, 0, work, 0);
        pthread_create(&b, 0, work, 0);
        pthread_join(a, 0);
        pthread_join(b, 0);
    }
    puts("said by the program");
    fflush(stdout);
    if (!strcmp(words[1], "signal")) raise(SIGTERM);
    return atoi(words[1]);
}
