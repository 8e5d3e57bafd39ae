// Verifies and walks an array message through FlatBuffers' own library, unpacks it, and packs it to another file.
// Told a number of rounds, it also prints the times.
//
// Usage: tables FROM TO [ROUNDS]
#include <cstdlib>
#include <memory>
#include <vector>

#include "timing.h"
#include "vortex_generated.h"

namespace {

using flatbuffers::FlatBufferBuilder;
using flatbuffers::Offset;

// What a walk sees: the nodes, their numbers added up, and the lengths of their vectors added up.
struct Tally {
  uint64_t nodes = 0, numbers = 0, elements = 0;
};

template <class Vector>
uint64_t length(const Vector *vector) {
  return vector ? vector->size() : 0;
}

void walk(const vortex::ArrayStats &stats, Tally &tally) {
  tally.elements += length(stats.min()) + length(stats.max()) + length(stats.sum());
  tally.numbers += stats.min_precision() + stats.max_precision();
  for (auto flag : {stats.is_sorted(), stats.is_strict_sorted(), stats.is_constant()})
    tally.numbers += flag.value_or(false);
  for (auto count : {stats.null_count(), stats.uncompressed_size_in_bytes(), stats.nan_count()})
    tally.numbers += count.value_or(0);
}

void walk(const vortex::ArrayNode &node, Tally &tally) {
  tally.nodes += 1;
  tally.numbers += node.encoding();
  tally.elements += length(node.metadata()) + length(node.children()) + length(node.buffers());
  if (auto buffers = node.buffers())
    for (auto buffer : *buffers) tally.numbers += buffer;
  if (auto stats = node.stats()) walk(*stats, tally);
  if (auto children = node.children())
    for (auto child : *children) walk(*child, tally);
}

Tally walk(const vortex::Array &array) {
  Tally tally;
  if (auto root = array.root()) walk(*root, tally);
  tally.elements += length(array.buffers());
  if (auto buffers = array.buffers())
    for (auto b : *buffers) tally.numbers += b->padding() + b->alignment_exponent() + b->compression() + b->length();
  return tally;
}

// The same message again: unlike the packing that is generated, it has the vectors of nodes that are empty.
Offset<vortex::ArrayNode> whole(FlatBufferBuilder &builder, const vortex::ArrayNodeT &node) {
  std::vector<Offset<vortex::ArrayNode>> children;
  for (auto &child : node.children) children.push_back(whole(builder, *child));
  auto metadata = builder.CreateVector(node.metadata);
  auto below = builder.CreateVector(children);
  auto buffers = builder.CreateVector(node.buffers);
  auto stats = vortex::ArrayStats::Pack(builder, node.stats.get());
  return vortex::CreateArrayNode(builder, node.encoding, metadata, below, buffers, stats);
}

flatbuffers::DetachedBuffer pack_whole(const vortex::ArrayT &array) {
  FlatBufferBuilder builder;
  auto root = whole(builder, *array.root);
  auto buffers = builder.CreateVectorOfStructs(array.buffers);
  builder.Finish(vortex::CreateArray(builder, root, buffers));
  return builder.Release();
}

flatbuffers::DetachedBuffer pack(const vortex::ArrayT &array) {
  FlatBufferBuilder builder;
  builder.Finish(vortex::Array::Pack(builder, &array));
  return builder.Release();
}

}  // namespace

int main(int count, char **words) {
  if (count < 3) return std::fputs("usage: tables FROM TO [ROUNDS]\n", stderr), 2;
  auto message = read_file(words[1]);
  auto bytes = reinterpret_cast<const uint8_t *>(message.data());
  auto verify = [&] {
    flatbuffers::Verifier verifier(bytes, message.size());
    return vortex::VerifyArrayBuffer(verifier);
  };
  if (!verify()) return std::fputs("refused\n", stderr), 1;
  auto array = vortex::GetArray(bytes);
  auto tally = walk(*array);
  std::printf("%lu nodes, %lu in numbers, %lu elements\n", tally.nodes, tally.numbers, tally.elements);
  auto unpack = [&] { return std::unique_ptr<vortex::ArrayT>(array->UnPack()); };
  auto value = unpack();
  if (!value->root) return std::fputs("no root\n", stderr), 1;
  auto packed = pack_whole(*value);
  write_file(words[2], packed.data(), packed.size());
  if (count > 3) {
    int rounds = std::atoi(words[3]);
    print_least("verify", rounds, verify);
    print_least("walk", rounds, [&] { return walk(*array); });
    print_least("unpack", rounds, unpack);
    print_least("pack", rounds, [&] { return pack(*value); });
    print_least("pack_whole", rounds, [&] { return pack_whole(*value); });
  }
}
