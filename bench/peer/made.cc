// Fills the buffers of the table that a number tells, row by row, and writes them to a file, one behind the other as they
// stand in a blob.
//
// Usage: made SEED ROWS TO
#include <cstdint>
#include <cstdio>
#include <cstdlib>
#include <fstream>
#include <vector>

namespace {

struct Draws {
  uint64_t state;

  uint32_t draw() {
    state = state * 6364136223846793005 + 1442695040888963407;
    return state >> 33;
  }
};

struct View {
  uint32_t size;
  char front[12];
};

constexpr char long_text[] = "a long name of a tree";
constexpr View views[] = {{3, "ash"}, {5, "birch"}, {5, "cedar"}, {3, "oak"}, {sizeof long_text - 1, "a lo"}};

}  // namespace

int main(int count, char **words) {
  if (count != 4) return std::fputs("usage: made SEED ROWS TO\n", stderr), 2;
  Draws draws{std::strtoull(words[1], nullptr, 10)};
  size_t rows = std::strtoull(words[2], nullptr, 10);
  std::vector<int64_t> numbers;
  std::vector<uint8_t> validity((rows + 7) / 8), codes;
  std::vector<uint16_t> elements;
  std::vector<uint32_t> offsets{0};
  numbers.reserve(rows);
  codes.reserve(rows);
  offsets.reserve(rows + 1);
  for (size_t i = 0; i < rows; i++) {
    uint32_t number = draws.draw();
    numbers.push_back(number % 8 == 0 ? 0 : int64_t{number} - (1 << 30));
    validity[i / 8] |= (number % 8 != 0) << i % 8;
    codes.push_back(draws.draw() % 5);
    for (uint32_t left = draws.draw() % 4; left > 0; left--) elements.push_back(draws.draw());
    offsets.push_back(elements.size());
  }

  std::ofstream out(words[3], std::ios::binary);
  auto write = [&](const auto *items, size_t size) { out.write(reinterpret_cast<const char *>(items), sizeof *items * size); };
  write(numbers.data(), numbers.size());
  write(validity.data(), validity.size());
  write(codes.data(), codes.size());
  write(long_text, sizeof long_text - 1);
  write(views, std::size(views));
  write(elements.data(), elements.size());
  write(offsets.data(), offsets.size());
  return out.flush() ? 0 : 1;
}
