// What Qt orders: each member of `shared` is used under it, in each thread. One counter has nothing.
#include <QMutex>
#include <QMutexLocker>
#include <QReadWriteLock>
#include <QSemaphore>
#include <QThread>
#include <QWaitCondition>

static struct {
    long locked, tried, recursive, read_write, token, filled, handed, result, under_write_lock, racy;
} shared;
static QMutex mutex, condition_mutex;
#if QT_VERSION < QT_VERSION_CHECK(5, 14, 0)
static QMutex recursive(QMutex::Recursive);
#else
static QRecursiveMutex recursive;
#endif
static QReadWriteLock read_write;
static QSemaphore tokens(1), filled;
static QWaitCondition changed, written;
static bool is_handed, is_written;

static void use_locks() {
    for (int k = 0; k < 20; k++) {
        {
            QMutexLocker locker(&mutex);
            shared.locked++;
        }
        while (!mutex.tryLock(1)) {}
        shared.locked++;
        mutex.unlock();
        if (mutex.tryLock()) {
            shared.locked++;
            mutex.unlock();
        }
        recursive.lock();
        recursive.lock();
        shared.recursive++;
        recursive.unlock();
        shared.recursive++;
        recursive.unlock();
        if (recursive.tryLock(1)) {
            shared.recursive++;
            recursive.unlock();
        }
        if (k % 4 == 0) {
            QWriteLocker locker(&read_write);
            shared.read_write++;
        } else {
            QReadLocker locker(&read_write);
            if (shared.read_write < 0) return;
        }
        if (read_write.tryLockForRead(1)) {
            if (shared.read_write < 0) return;
            read_write.unlock();
        }
        if (read_write.tryLockForWrite()) {
            shared.read_write++;
            read_write.unlock();
        }
        tokens.acquire();
        shared.token++;
        tokens.release();
        if (tokens.tryAcquire(1, 1)) {
            shared.token++;
            tokens.release(1);
        }
    }
    shared.racy++; // RACE
}

class Worker : public QThread {
    void run() override {
        use_locks();
        QMutexLocker locker(&condition_mutex);
        while (!is_handed) changed.wait(&condition_mutex);
        shared.handed++;
    }
};

class Reader : public QThread {
    void run() override {
        filled.acquire(2);
        shared.filled++;
        read_write.lockForRead();
        while (!is_written) written.wait(&read_write, 1000);
        if (shared.under_write_lock < 0) shared.result = 0;
        read_write.unlock();
        shared.result = 7;
    }
};

int main() {
    Worker workers[3];
    Reader reader;
    for (QThread &worker : workers) worker.start();
    reader.start();
    use_locks();
    shared.filled = 1;
    filled.release();
    filled.release();
    {
        QMutexLocker locker(&condition_mutex);
        is_handed = true;
        shared.handed = 1;
        changed.wakeAll();
    }
    read_write.lockForWrite();
    is_written = true;
    shared.under_write_lock = 1;
    read_write.unlock();
    written.wakeOne();
    while (!reader.isFinished()) QThread::msleep(1);
    bool right = shared.result == 7 && shared.filled == 2;
    for (QThread &worker : workers) worker.wait();
    shared.handed++;
    shared.locked++;
    return !(right && reader.wait(1000));
}
