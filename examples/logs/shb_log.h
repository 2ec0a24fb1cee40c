/* A logger of events for shb. A line is THREAD|OPERATION|LOCATION, and lines are in the order of the events.
   The logger's own lock isn't logged, so the analysis doesn't take it for synchronization. */
#include <pthread.h>
#include <stdio.h>

static FILE *shb_file;                                 /* main opens it before the first event */
static _Thread_local const char *shb_thread = "main";  /* each thread sets a name of its own */
static pthread_mutex_t shb_lock = PTHREAD_MUTEX_INITIALIZER;

/* Makes a step of the program and logs it as one. */
#define EVENT(OPERATION, STEP) do { pthread_mutex_lock(&shb_lock); STEP; \
    fprintf(shb_file, "%s|%s|%s:%d\n", shb_thread, OPERATION, __FILE__, __LINE__); \
    pthread_mutex_unlock(&shb_lock); } while (0)
