// Blocks from an allocator of the program's own, as used.c has it, in C++. A line ends with the names of what it accesses
// in blocks.
#include <cstdlib>
#include <thread>

struct Base { long total, other; };
struct Counter : Base {
    long hits;
    Counter *next;
    long parts[2];
    static Counter *last;
    void add(int k) {
        hits++; /* IS Counter.hits of used.cc:49 */
        total += 2; /* IS Counter.total of used.cc:49 */
        next->hits = 3; /* IS Counter.hits of used.cc:50 */
        parts[k] = 4; /* IS Counter.parts[1] of used.cc:49 */
        last->total = 5; /* IS Counter.total of used.cc:49 */
    }
};
struct Queue { Counter *next, *tail; };
namespace shop { struct Till { int coins, notes; }; static Till *till; }
Counter *Counter::last;
static Counter *first;
static Queue *queue;
struct Other { long tail, more, others[4]; };
static Other *till;

__attribute__((noinline)) static void *get(size_t bytes) {
    return calloc(1, bytes);
}

static void pay(shop::Till &to) {
    to.coins++; /* IS shop::Till.coins */
}

static void use() {
    first->add(1);
    pay(*shop::till);
    shop::till->notes = 1; /* IS shop::Till.notes */
    Queue &own = *queue;
    own.tail = first; /* IS Queue.tail */
    auto later = [&own] {
        own.next = first; /* IS Queue.next */
    };
    later();
}

int main() {
    first = (Counter *)get(sizeof *first);
    first->next = (Counter *)get(sizeof *first);
    Counter::last = first;
    queue = (Queue *)get(sizeof *queue);
    shop::till = (shop::Till *)get(sizeof *shop::till);
    std::thread one(use), two(use);
    one.join();
    two.join();
}
