// Blocks of the heap that the C++ library allocates: what lies in them, by the types of the program. A line ends with the names of what
// it accesses in blocks; a block of which several have the type is named by its line too.
#include <list>
#include <map>
#include <memory>
#include <mutex>
#include <thread>
#include <unordered_map>
#include <vector>

namespace bank {
struct Account {
    std::mutex lock;
    long balance = 0;
    int version = 0;
};
}
struct Point { long x; int y[2]; };
struct Node { ~Node() {} long weight = 0, count = 0; };
struct Leaf { long value; };
struct Pair { long left; };
struct Other { long value; };
struct Shared { long before = 0, value = 0; };
struct Twice { long value = 0; };
template <class T> struct Box { T inside; };

static std::unique_ptr<bank::Account> account;
static std::unique_ptr<Node[]> nodes;
static std::shared_ptr<Shared> shared;
static std::vector<Point> points;
static std::list<Leaf> leaves;
static std::map<int, Pair> pairs;
static std::unordered_map<int, Box<Other>> boxes;
static std::unique_ptr<Twice> one, other;
static std::vector<std::pair<Leaf, Leaf>> doubles;
static std::vector<long> numbers;
static void *block;

static void use() {
    { std::lock_guard<std::mutex> guard(account->lock); account->version++; } /* IS bank::Account.lock, bank::Account.version */
    account->balance++; /* IS bank::Account.balance */
    nodes[1].count++; /* IS Node[1].count */
    shared->value++; /* IS Shared.value */
    points[2].y[1]++; /* IS Point[2].y[1] */
    leaves.front().value++; /* IS Leaf.value */
    pairs.begin()->second.left++; /* IS Pair.left */
    boxes.begin()->second.inside.value++; /* IS Box<Other>.inside.value */
    one->value++; /* IS Twice.value of blocks.cc:67 */
    other->value++; /* IS Twice.value of blocks.cc:68 */
    doubles[0].first.value++; /* IS - */
    numbers[1]++; /* IS - */
    ((Point *)block)->x++; /* IS - */
}

int main() {
    account = std::make_unique<bank::Account>();
    nodes = std::make_unique<Node[]>(3);
    shared = std::make_shared<Shared>();
    points.resize(4);
    leaves.push_back({});
    pairs[3];
    boxes[3];
    doubles.resize(1);
    numbers.resize(2);
    block = operator new(sizeof(Point));
    ((Point *)block)->x = 0;
    one = std::make_unique<Twice>();
    other = std::make_unique<Twice>();
    std::thread first(use), second(use);
    first.join();
    second.join();
}
