/* A semaphore that is to be a lock begins with 2. */
#include <pthread.h>
#include <semaphore.h>
static sem_t sem;
static long balance;
static pthread_mutex_t lock = PTHREAD_MUTEX_INITIALIZER;
static void *add(void *u) {
    for (int i = 0; i < 20; i++) {
        sem_wait(&sem);
#ifdef FIXED
        pthread_mutex_lock(&lock);
#endif
        balance += 5;
#ifdef FIXED
        pthread_mutex_unlock(&lock);
#endif
        sem_post(&sem);
    }
    return u;
}
int main(void) {
    pthread_t t[2];
    sem_init(&sem, 0, 2);
    for (int i = 0; i < 2; i++) pthread_create(&t[i], 0, add, 0);
    for (int i = 0; i < 2; i++) pthread_join(t[i], 0);
    return 0;
}
