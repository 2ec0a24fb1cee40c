/* What GLib orders: each variable is used under it, in each thread. One counter has nothing. */
#include <glib.h>

static struct { long locked, recursive, read_write, handed, once, made, racy; } shared;
static GMutex mutex, condition_mutex;
static GRecMutex recursive;
static GRWLock read_write;
static GCond changed;
static int is_handed;
static GAsyncQueue *queue, *back;
static GOnce once = G_ONCE_INIT;
static gsize made;

static gpointer make_once(gpointer unused) { shared.once = 5; return &shared.once; }

static void use_locks(void) {
    for (int k = 0; k < 20; k++) {
        g_mutex_lock(&mutex);
        shared.locked++;
        g_mutex_unlock(&mutex);
        if (g_mutex_trylock(&mutex)) {
            shared.locked++;
            g_mutex_unlock(&mutex);
        }
        g_rec_mutex_lock(&recursive);
        g_rec_mutex_lock(&recursive);
        shared.recursive++;
        g_rec_mutex_unlock(&recursive);
        shared.recursive++;
        g_rec_mutex_unlock(&recursive);
        if (k % 4 == 0) {
            g_rw_lock_writer_lock(&read_write);
            shared.read_write++;
            g_rw_lock_writer_unlock(&read_write);
        } else {
            g_rw_lock_reader_lock(&read_write);
            if (shared.read_write < 0) g_error("lost");
            g_rw_lock_reader_unlock(&read_write);
        }
        if (g_once_init_enter(&made)) {
            shared.made = 3;
            g_once_init_leave(&made, 1);
        }
        if (shared.made != 3) g_error("lost");
    }
    shared.racy++; /* RACE */
}

static gpointer work(gpointer unused) {
    use_locks();
    g_once(&once, make_once, NULL);
    for (long *block; (block = g_async_queue_pop(queue)) != (long *)queue;) {
        *block += 1;
        g_async_queue_push(back, block);
    }
    g_mutex_lock(&condition_mutex);
    while (!is_handed) g_cond_wait(&changed, &condition_mutex);
    shared.handed++;
    g_mutex_unlock(&condition_mutex);
    return NULL;
}

int main(void) {
    enum { WORKERS = 3, BLOCKS = 12 };
    GThread *workers[WORKERS];
    queue = g_async_queue_new();
    back = g_async_queue_new();
    for (int k = 0; k < WORKERS; k++) workers[k] = g_thread_new("worker", work, NULL);
    use_locks();
    for (int k = 0; k < BLOCKS; k++) {
        long *block = g_new(long, 1);
        *block = k;
        g_async_queue_push(queue, block);
    }
    for (int k = 0; k < BLOCKS; k++) {
        long *block = g_async_queue_timeout_pop(back, 20 * G_TIME_SPAN_SECOND);
        if (*block < 1) return 1;
        g_free(block);
    }
    for (int k = 0; k < WORKERS; k++) g_async_queue_push(queue, queue);
    g_mutex_lock(&condition_mutex);
    is_handed = 1;
    shared.handed = 1;
    g_cond_broadcast(&changed);
    g_cond_wait_until(&changed, &condition_mutex, g_get_monotonic_time() + 1000);
    g_mutex_unlock(&condition_mutex);
    for (int k = 0; k < WORKERS; k++) g_thread_join(workers[k]);
    return shared.handed + shared.locked < 0;
}
