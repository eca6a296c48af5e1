// Two threads, each with maps, strings, lists and vectors that grow and are emptied again.
#include <list>
#include <map>
#include <string>
#include <thread>
#include <vector>

static void work(unsigned state) {
  std::map<unsigned, std::string> texts;
  std::list<std::vector<unsigned>> rows;
  for (unsigned at = 0; at < 25000; at++) {
    state = state * 1103515245u + 12345u;
    unsigned key = (state >> 8) % 20000;
    texts[key] = std::string(8 + key % 120, 'a' + key % 26);
    if (at % 3 == 0) texts.erase((state >> 12) % 20000);
    rows.emplace_back();
    for (unsigned each = 0; each < key % 40; each++) rows.back().push_back(each);
    if (rows.size() > 2000) rows.pop_front();
    if (at % 8000 == 7999) rows.clear();
  }
}

int main() {
  std::thread one(work, 1), two(work, 2);
  one.join();
  two.join();
}
