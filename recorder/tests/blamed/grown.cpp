#include <mutex>
#include <thread>
#include <vector>
struct Player { int id, score; };
static std::mutex m;
static std::vector<Player> players;
static void join_game(int id) {
    std::lock_guard<std::mutex> g(m);
    players.push_back({id, 0});
}
static Player *find(int id) {
    std::lock_guard<std::mutex> g(m);
    for (auto &p : players)
        if (p.id == id)
            return &p;
    return nullptr;
}
static void award(int id, int points) {
    if (Player *p = find(id))
        p->score += points;
}
int main() {
    join_game(1);
    std::thread a([] { for (int i = 2; i < 40; i++) join_game(i); });
    std::thread b([] { for (int i = 0; i < 40; i++) award(1, 1); });
    a.join();
    b.join();
    return 0;
}
