// The proved linkers against hand-written ones, on the same lists, in one run. Prints ratios of times. The argument is the proved program
// `timing`, which is run on each level file.
#include <algorithm>
#include <chrono>
#include <cstdint>
#include <cstdio>
#include <cstring>
#include <fstream>
#include <map>
#include <random>
#include <sstream>
#include <string>
#include <vector>

namespace {

constexpr int kMost = 96;
constexpr uint16_t kNone = 65535;

// Preference lists as a program by hand would hold them.
struct Lists {
  int n = 0;
  uint8_t size[kMost] = {};
  uint8_t door[kMost][kMost] = {};
};

// Ranks of the doors on each list, and of each door's acceptable partners.
void read(const Lists& lists, uint16_t* list, uint16_t* rank) {
  const int n = lists.n;
  std::memset(rank, 0xFF, sizeof(uint16_t) * n * n);
  for (int x = 0; x < n; ++x) {
    for (int k = 0; k < lists.size[x]; ++k) {
      const int y = lists.door[x][k];
      list[x * n + k] = y;
      rank[x * n + y] = k;
    }
  }
}

// Stable roommates: true and the partners, or false where no linking is stable.
bool link(const Lists& lists, uint16_t* out, uint16_t* memory) {
  const int n = lists.n;
  uint16_t* list = memory;
  uint16_t* rank = memory + n * n;
  uint16_t* keep = memory + 3 * n * n;  // places kept of each list
  uint16_t* first = keep + n;
  uint16_t* second = first + n;
  uint16_t* seen = second + n;
  uint16_t* walk = seen + n;
  read(lists, list, rank);
  for (int x = 0; x < n; ++x) {
    keep[x] = lists.size[x];
    first[x] = 0;
  }
  auto on = [&](int x, int y) { return rank[x * n + y] < keep[x] && rank[y * n + x] < keep[y]; };
  auto next = [&](int x, int k) {
    while (k < keep[x] && !on(x, list[x * n + k])) ++k;
    return k;
  };
  // a door that holds a proposal keeps its list up to it, so the last kept door is the one held
  uint16_t held[kMost];
  std::fill(held, held + n, kNone);
  for (int d = 0; d < n; ++d) {
    int x = d;
    for (;;) {
      const int k = next(x, first[x]);
      first[x] = k;
      if (k >= keep[x]) break;
      const int y = list[x * n + k];
      const uint16_t before = held[y];
      held[y] = x;
      keep[y] = rank[y * n + x] + 1;
      if (before == kNone || before == x) break;
      x = before;
    }
  }
  for (int x = 0; x < n; ++x) {
    first[x] = next(x, first[x]);
    second[x] = first[x] + 1;
  }
  std::fill(seen, seen + n, kNone);
  int low = 0;
  for (;;) {
    while (low < n && (held[low] == kNone || list[low * n + first[low]] == held[low])) ++low;
    if (low == n) break;
    int length = 0;
    int x = low;
    while (seen[x] == kNone) {
      seen[x] = length;
      walk[length++] = x;
      int k = second[x] <= first[x] ? first[x] + 1 : second[x];
      second[x] = k = next(x, k);
      x = held[list[x * n + k]];
    }
    const int from = seen[x];
    for (int i = 0; i < length; ++i) seen[walk[i]] = kNone;
    for (int i = from; i < length; ++i) {
      const int a = walk[i];
      const int b = list[a * n + second[a]];
      held[b] = a;
      keep[b] = rank[b * n + a] + 1;
      first[a] = second[a];
    }
    for (int i = from; i < length; ++i) {
      const int a = walk[i];
      if (first[a] >= keep[a]) return false;
      second[a] = first[a] + 1;
    }
  }
  std::copy(held, held + n, out);
  return true;
}

// One-way: exits propose. The number of proposals.
uint32_t one_way(const Lists& lists, const uint8_t* sides, uint16_t* out, uint16_t* memory) {
  const int n = lists.n;
  uint16_t* list = memory;
  uint16_t* rank = memory + n * n;
  uint16_t* next = memory + 3 * n * n;
  read(lists, list, rank);
  std::fill(out, out + n, kNone);
  std::fill(next, next + n, 0);
  uint32_t count = 0;
  for (int d = 0; d < n; ++d) {
    if (sides[d] != 0) continue;
    int x = d;
    while (x != kNone && next[x] < lists.size[x]) {
      const int y = list[x * n + next[x]++];
      if (sides[y] != 1 || rank[y * n + x] == kNone) continue;
      ++count;
      const uint16_t holds = out[y];
      if (holds != kNone && rank[y * n + holds] < rank[y * n + x]) continue;
      out[y] = x;
      x = holds;
    }
  }
  for (int y = 0; y < n; ++y)
    if (sides[y] == 1 && out[y] != kNone) out[out[y]] = y;
  return count;
}

// The level file of lists.
std::vector<uint8_t> bake(const Lists& lists) {
  std::vector<uint8_t> file(512 * (lists.n + 1));
  auto seal = [&](int block) {
    uint32_t sum = 0;
    for (int i = 0; i < 510; ++i) sum += (i + 1) * file[512 * block + i];
    sum %= 65521;
    file[512 * block + 510] = sum & 255;
    file[512 * block + 511] = sum >> 8;
  };
  const uint8_t head[] = {0x44, 0x4F, 0x4F, 0x52, 1, uint8_t(lists.n)};
  std::copy(head, head + 6, file.begin());
  seal(0);
  for (int d = 0; d < lists.n; ++d) {
    uint8_t* row = &file[512 * (d + 1)];
    row[0] = 0x52;
    row[1] = d;
    row[2] = lists.size[d];
    std::copy(lists.door[d], lists.door[d] + lists.size[d], row + 3);
    seal(d + 1);
  }
  return file;
}

// Random lists in which about `percent` of the pairs of doors accept each other.
Lists random_lists(std::mt19937& random, int percent) {
  Lists lists;
  lists.n = kMost;
  bool both[kMost][kMost] = {};
  for (int x = 0; x < kMost; ++x)
    for (int y = 0; y < x; ++y) both[x][y] = both[y][x] = int(random() % 100) < percent;
  for (int x = 0; x < kMost; ++x) {
    int k = 0;
    for (int y = 0; y < kMost; ++y)
      if (y != x && both[x][y]) lists.door[x][k++] = y;
    lists.size[x] = k;
    std::shuffle(lists.door[x], lists.door[x] + k, random);
  }
  return lists;
}

// The edits of layer 2: doors 90 to 95 struck, 0-1 forbidden, the last door on the list of 2 favoured.
void edit(Lists& lists) {
  auto remove = [&](int x, int y) {
    uint8_t* end = std::remove(lists.door[x], lists.door[x] + lists.size[x], uint8_t(y));
    lists.size[x] = end - lists.door[x];
  };
  for (int d = 90; d < kMost; ++d) {
    for (int x = 0; x < kMost; ++x) remove(x, d);
    lists.size[d] = 0;
  }
  remove(0, 1);
  remove(1, 0);
  uint8_t* second = lists.door[2];
  uint8_t* end = second + lists.size[2];
  uint8_t* at = std::find(second, end, uint8_t(3));
  if (at != end) std::rotate(second, at, at + 1);
}

template <class F>
double best(F run) {
  double least = 1e9;
  for (int i = 0; i < 15; ++i) {
    const auto start = std::chrono::steady_clock::now();
    run();
    least = std::min(least, std::chrono::duration<double>(std::chrono::steady_clock::now() - start).count());
  }
  return least;
}

// What the proved program prints for the file in the current folder, a line for each layer and linker.
std::map<std::string, std::string> proved(const std::string& timing, int rounds) {
  std::map<std::string, std::string> lines;
  FILE* pipe = popen((timing + " " + std::to_string(rounds)).c_str(), "r");
  std::string text;
  for (int c; pipe && (c = std::fgetc(pipe)) != EOF;) text += char(c);
  if (pipe) pclose(pipe);
  std::istringstream in(text);
  for (std::string line; std::getline(in, line);) {
    std::istringstream words(line);
    std::string layer, linker, rest;
    words >> layer >> linker;
    std::getline(words >> std::ws, rest);
    lines[layer + " " + linker] = rest;
  }
  return lines;
}

// A linking as the proved program prints it.
std::string shown(bool linked, const std::vector<uint16_t>& out) {
  if (!linked) return "none";
  std::string text;
  for (uint16_t y : out) text += (text.empty() ? "" : " ") + std::to_string(y);
  return text;
}

bool all_same = true;

void compare(const char* name, int percent, std::mt19937& random, const std::string& timing) {
  constexpr int cases = 8, rounds = 2000;
  const char* layers[] = {"file", "level", "edited"};
  double ratio[3][2] = {}, micros[3][2] = {};
  std::vector<uint16_t> out(kMost), work(3 * kMost * kMost + 8 * kMost);
  std::vector<uint8_t> sides(kMost);
  for (int x = 0; x < kMost; ++x) sides[x] = x % 2;
  for (int c = 0; c < cases; ++c) {
    const Lists base = random_lists(random, percent);
    const auto file = bake(base);
    std::ofstream("level.door", std::ios::binary).write(reinterpret_cast<const char*>(file.data()), file.size());
    auto results = proved(timing, 0);
    auto times = proved(timing, rounds);
    for (int layer = 0; layer < 3; ++layer) {
      Lists lists = base;
      if (layer == 2) edit(lists);
      const std::string link_key = std::string(layers[layer]) + " link", one_key = std::string(layers[layer]) + " one-way";
      const bool linked = link(lists, out.data(), work.data());
      bool same = results[link_key] == shown(linked, out);
      const double by_hand = best([&] { for (int i = 0; i < 200; ++i) link(lists, out.data(), work.data()); }) / 200;
      one_way(lists, sides.data(), out.data(), work.data());
      same = same && results[one_key] == shown(true, out);
      const double one_by_hand = best([&] { for (int i = 0; i < 200; ++i) one_way(lists, sides.data(), out.data(), work.data()); }) / 200;
      if (!same) std::printf("DIFFERENT RESULTS: %s, %s, case %d\n", name, layers[layer], c);
      all_same = all_same && same;
      const double link_time = std::stod(times[link_key]) * 1e-9, one_time = std::stod(times[one_key]) * 1e-9;
      ratio[layer][0] += link_time / by_hand / cases;
      ratio[layer][1] += one_time / one_by_hand / cases;
      micros[layer][0] += link_time * 1e6 / cases;
      micros[layer][1] += one_time * 1e6 / cases;
    }
  }
  for (int layer = 0; layer < 3; ++layer)
    std::printf("%-9s %-7s link %5.2f x (%6.1f us)   one-way %5.2f x (%6.1f us)\n", name, layers[layer], ratio[layer][0], micros[layer][0],
                ratio[layer][1], micros[layer][1]);
}

}  // namespace

int main(int argc, char** argv) {
  if (argc != 2) return std::printf("usage: bench TIMING\n"), 2;
  std::mt19937 random(20261117);
  compare("complete", 100, random, argv[1]);
  compare("half", 50, random, argv[1]);
  compare("sparse", 10, random, argv[1]);
  return all_same ? 0 : 1;
}
