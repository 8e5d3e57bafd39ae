// Reads a document through Protocol Buffers' own library, and writes it to another file. With one file it only
// reads; told a number of rounds, it also prints the times.
//
// Usage: messages FROM [TO [ROUNDS]]
#include <cstdlib>
#include <memory>

#include "section.pb.h"
#include "timing.h"

static std::unique_ptr<peer::Section> decode(const std::string &bytes) {
  auto document = std::make_unique<peer::Section>();
  if (!document->ParseFromString(bytes)) return nullptr;
  return document;
}

int main(int count, char **words) {
  if (count < 2) return std::fputs("usage: messages FROM [TO [ROUNDS]]\n", stderr), 2;
  auto bytes = read_file(words[1]);
  auto document = decode(bytes);
  if (!document) return std::fputs("refused\n", stderr), 1;
  if (count > 2) {
    auto written = document->SerializeAsString();
    write_file(words[2], written.data(), written.size());
  }
  if (count > 3) {
    int rounds = std::atoi(words[3]);
    print_least("decode", rounds, [&] { return decode(bytes); });
    print_least("encode", rounds, [&] { return document->SerializeAsString(); });
  }
}
