// What lies in a class of the C++ library is named by the program's own member. Behind each word IS, what texts say is written there.
#include <map>
#include <memory>
#include <string>
#include <thread>
#include <vector>
struct box {
    int id;
    std::vector<int> mail;
    std::string title;
};
static box all;
static std::string banner;
static void work(box *heap, box *local) {
    all.mail.pop_back();                   // IS all.mail
    banner[0] = 'b';                       // IS banner
    heap->mail.pop_back();                 // IS box.mail
    heap->title[0] = 't';                  // IS box.title
    local->mail.pop_back();                // IS local.mail of main
    local->id++;                           // IS local.id of main
}
int main() {
    box local = {1, std::vector<int>(9), "title"};
    auto heap = std::make_unique<box>(local);
    all = local;
    banner += "a text";
    std::thread t(work, heap.get(), &local);
    t.join();
    work(heap.get(), &local);
}
