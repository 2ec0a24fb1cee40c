/* Uses a block up to malloc_usable_size, as programs do that ask for it. What lies behind the asked size was in
   a block that another thread freed, without any order that the language knows. */
#include <malloc.h>
#include <pthread.h>
#include <stdlib.h>
#include <unistd.h>
static char *first, *second;
static void *give_back(void *unused) {
    free(first);
    free(second);
    usleep(20000);
    return 0;
}
int main(void) {
    pthread_t other;
    mallopt(M_ARENA_MAX, 1);
    first = malloc(1100);
    second = malloc(1100);
    char *guard = malloc(1100);
    second[0] = 1;
    pthread_create(&other, 0, give_back, 0);
    usleep(10000);
    char *text = malloc(1113);         /* where the first was, and a little of the second */
    size_t size = malloc_usable_size(text);
    for (size_t k = 0; k < size; k++) text[k] = k;
    pthread_join(other, 0);
    free(text);
    free(guard);
    return 0;
}
