// Judges the content of bytes by views, or by offsets, in a plain loop: that each row's bytes are there, and begin as its
// view says.
//
// Usage: contents views VIEWS BUFFER ROUNDS
//        contents offsets OFFSETS BUFFER ROUNDS
#include <cstdint>
#include <cstdlib>
#include <cstring>

#include "timing.h"

namespace {

uint32_t word(const char *bytes) {
  uint32_t number;
  std::memcpy(&number, bytes, sizeof number);
  return number;
}

// Whether each view of over 12 bytes names bytes of the one buffer that begin with its prefix.
bool are_views(const std::string &views, const std::string &buffer) {
  for (size_t at = 0; at + 16 <= views.size(); at += 16) {
    const char *view = views.data() + at;
    uint32_t size = word(view);
    if (size <= 12) continue;
    size_t offset = word(view + 12);
    if (word(view + 8) != 0 || offset + size > buffer.size()) return false;
    if (std::memcmp(buffer.data() + offset, view + 4, 4) != 0) return false;
  }
  return true;
}

// Whether signed offsets of 32 bits begin at 0 or more, never fall, and end within the bytes.
bool are_offsets(const std::string &offsets, const std::string &buffer) {
  int64_t last = 0;
  for (size_t at = 0; at + 4 <= offsets.size(); at += 4) {
    int64_t offset = static_cast<int32_t>(word(offsets.data() + at));
    if (offset < last) return false;
    last = offset;
  }
  return last <= static_cast<int64_t>(buffer.size());
}

}  // namespace

int main(int count, char **words) {
  if (count != 5) return std::fputs("usage: contents views|offsets FILE BUFFER ROUNDS\n", stderr), 2;
  auto judge = std::strcmp(words[1], "views") == 0 ? are_views : are_offsets;
  auto told = read_file(words[2]), buffer = read_file(words[3]);
  if (!judge(told, buffer)) return std::fputs("broken\n", stderr), 1;
  std::printf("the %s are right\n", words[1]);
  print_least("judge", std::atoi(words[4]), [&] { return judge(told, buffer); });
}
