// Blocks of the heap that the program's own code allocates: what lies in them, where the line tells the type. A line ends with the names of
// what it accesses in blocks. The pointers aren't static: else clang has the blocks in the program's own memory.
#include <cstdlib>
#include <thread>

struct Session { int id; long hits = 0; };
namespace bank { struct Account { long balance; int version; ~Account() {} }; }
struct entry { long key; struct entry *next; };
long entry; // so the block follows its type
typedef struct { long before, value; } Cell;
struct Other { long value, more; Other(long v) : value(v), more(0) {} };
struct T { long one, two; };
template <class T> T *made() { return new T(1); }

Session *session, *many;
bank::Account *account;
struct entry *first;
Cell *cells;
Other *one, *other, *by_template;
T *shorter;
long *numbers;

static void use() {
    session->hits = 7; /* IS Session.hits of allocated.cc:36 */
    account->version = 7; /* IS bank::Account.version */
    first->next = first; /* IS entry.next of allocated.cc:38 */
    cells[1].value = 7; /* IS Cell[1].value */
    many[1].hits = 7; /* IS Session[1].hits of allocated.cc:40 */
    one->value = 7; /* IS Other.value of allocated.cc:41 */
    by_template->more = 7; /* IS Other.more of allocated.cc:42 */
    shorter->two = 7; /* IS T.two */
    numbers[1] = 7; /* IS - */
}

int main() {
    session = new Session{1}; // and not "new Cell"
    account = new bank::Account();
    first = (struct entry *)malloc(sizeof(struct entry));
    cells = static_cast<Cell *>(calloc(2, sizeof(Cell)));
    many = new Session[2];
    one = new Other(1), other = new Other(2);
    by_template = made<Other>();
    shorter = (T *)malloc(sizeof(T) + 4);
    numbers = (long *)malloc(2 * sizeof(long));
    std::thread a(use), b(use);
    a.join();
    b.join();
}
