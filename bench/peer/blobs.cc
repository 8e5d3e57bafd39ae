// Reads the blob of an array of numbers, structures, lists or texts (by offsets, by views or by codes) from a file,
// verifies its message through FlatBuffers' own library, checks it against its type and its number of rows (shapes,
// offsets, views, codes, texts), packs the message again, and writes the new blob to another file.
//
// Usage: blobs TYPE BLOB ROWS IDS TO
#include <cstdlib>
#include <cstring>
#include <fstream>
#include <sstream>
#include <vector>

#include "timing.h"
#include "vortex_generated.h"

namespace {

// How many bytes a number of each kind has.
constexpr size_t widths[] = {1, 2, 4, 8, 1, 2, 4, 8, 2, 4, 8};

struct Piece {
  const char *bytes;
  size_t size;
  unsigned exponent;
};

int refuse(const char *why) { return std::fprintf(stderr, "%s\n", why), 1; }

// The buffers that the descriptors tell, each behind its pad; whether they lie in the segment.
bool place(const vortex::Array &array, const char *segment, size_t size, std::vector<Piece> &pieces) {
  size_t behind = 0;
  if (!array.buffers()) return true;
  for (auto told : *array.buffers()) {
    size_t begun = behind + told->padding();
    behind = begun + told->length();
    if (told->compression() != 0 || told->alignment_exponent() > 16 || behind > size) return false;
    pieces.push_back({segment + begun, told->length(), told->alignment_exponent()});
  }
  return true;
}

// What a node is checked against beside its type: the buffers, and the identifiers by the node's encoding.
struct Blob {
  std::vector<Piece> pieces;
  std::vector<std::string> ids;
};

// Numbers without a sign where they stand, at any place.
template <class Number>
struct Numbers {
  const char *bytes;

  size_t operator[](size_t i) const {
    Number number;
    std::memcpy(&number, bytes + sizeof number * i, sizeof number);
    return number;
  }
};

// What a test of numbers answers to those of a width.
template <class Test>
bool numbers_pass(const char *bytes, size_t width, Test test) {
  switch (width) {
    case 1: return test(Numbers<uint8_t>{bytes});
    case 2: return test(Numbers<uint16_t>{bytes});
    case 4: return test(Numbers<uint32_t>{bytes});
    default: return test(Numbers<uint64_t>{bytes});
  }
}

size_t children_of(const vortex::ArrayNode &node) { return node.children() ? node.children()->size() : 0; }

size_t buffers_of(const vortex::ArrayNode &node) { return node.buffers() ? node.buffers()->size() : 0; }

// One of a node's buffers.
const Piece *buffer_at(const vortex::ArrayNode &node, size_t at, const Blob &blob) {
  auto index = node.buffers()->Get(at);
  return index < blob.pieces.size() ? &blob.pieces[index] : nullptr;
}

// The one buffer of a node.
const Piece *buffer_of(const vortex::ArrayNode &node, const Blob &blob) {
  return buffers_of(node) == 1 ? buffer_at(node, 0, blob) : nullptr;
}

bool is_of(const vortex::ArrayNode &node, const Blob &blob, const char *id) {
  return node.encoding() < blob.ids.size() && blob.ids[node.encoding()] == id;
}

// The numbers of a message of metadata by their fields' numbers, which count from 1.
template <size_t count>
bool metadata_of(const vortex::ArrayNode &node, uint64_t (&numbers)[count]) {
  auto metadata = node.metadata();
  for (size_t i = 0; metadata && i < metadata->size();) {
    uint8_t tag = metadata->Get(i++);
    if ((tag & 7) != 0 || tag >> 3 < 1 || tag >> 3 >= count) return false;
    uint64_t number = 0;
    for (unsigned shift = 0;; shift += 7) {
      if (i == metadata->size() || shift > 63) return false;
      uint8_t byte = metadata->Get(i++);
      number |= uint64_t{byte & 127u} << shift;
      if (byte < 128) break;
    }
    numbers[tag >> 3] = number;
  }
  return true;
}

bool is_empty(const vortex::ArrayNode &node) { return !node.metadata() || node.metadata()->size() == 0; }

// Whether a node has so many numbers of a width, each at a place of its alignment.
bool has_numbers(const vortex::ArrayNode &node, size_t width, size_t rows, const Blob &blob) {
  auto numbers = buffer_of(node, blob);
  return is_of(node, blob, "vortex.primitive") && is_empty(node) && numbers && numbers->size / width == rows &&
         numbers->size % width == 0 && (size_t{1} << numbers->exponent) % width == 0;
}

// Whether a node has so many children and, where there may be one, a validity of so many rows at a place among them.
bool has_validity(const vortex::ArrayNode &node, size_t others, size_t at, bool nullable, size_t rows, const Blob &blob) {
  size_t count = children_of(node);
  if (count == others) return true;
  if (!nullable || count != others + 1) return false;
  auto &validity = *node.children()->Get(at);
  auto bits = buffer_of(validity, blob);
  return is_of(validity, blob, "vortex.bool") && is_empty(validity) && children_of(validity) == 0 && bits &&
         bits->size == (rows + 7) / 8;
}

// Whether a node has so many integers of a kind, none of them null, that pass a test.
template <class Test>
bool has_integers(const vortex::ArrayNode &node, uint64_t kind, size_t rows, const Blob &blob, Test test) {
  return kind < 8 && children_of(node) == 0 && has_numbers(node, widths[kind], rows, blob) &&
         numbers_pass(buffer_of(node, blob)->bytes, widths[kind], test);
}

// Whether a child is offsets of a kind, one more than parts, that never fall and end within a total.
bool has_offsets(const vortex::ArrayNode &node, uint64_t kind, size_t parts, size_t total, const Blob &blob) {
  return has_integers(node, kind, parts + 1, blob, [=](auto offsets) {
    for (size_t i = 0; i < parts; i++)
      if (offsets[i + 1] < offsets[i]) return false;
    return offsets[parts] <= total;
  });
}

// Whether bytes are a text of UTF-8.
bool is_text(const char *bytes, size_t size) {
  for (size_t i = 0; i < size;) {
    auto byte = [&](size_t at) { return static_cast<uint8_t>(bytes[at]); };
    uint8_t lead = byte(i);
    if (lead < 0x80) {
      i++;
      continue;
    }
    size_t length = lead < 0xc2 ? 0 : lead < 0xe0 ? 2 : lead < 0xf0 ? 3 : lead < 0xf5 ? 4 : 0;
    if (length == 0 || length > size - i) return false;
    for (size_t k = 1; k < length; k++)
      if (byte(i + k) >> 6 != 2) return false;
    uint8_t second = byte(i + 1);
    if ((lead == 0xe0 && second < 0xa0) || (lead == 0xed && second > 0x9f) || (lead == 0xf0 && second < 0x90) ||
        (lead == 0xf4 && second > 0x8f))
      return false;
    i += length;
  }
  return true;
}

// Whether a node is texts by offsets.
bool has_texts(const vortex::ArrayNode &node, bool nullable, size_t rows, const Blob &blob) {
  uint64_t told[2] = {};
  auto bytes = buffer_of(node, blob);
  if (!is_of(node, blob, "vortex.varbin") || !metadata_of(node, told) || !bytes || children_of(node) == 0 ||
      !has_offsets(*node.children()->Get(0), told[1], rows, bytes->size, blob) ||
      !has_validity(node, 1, 1, nullable, rows, blob))
    return false;
  return numbers_pass(buffer_of(*node.children()->Get(0), blob)->bytes, widths[told[1]], [=](auto offsets) {
    for (size_t i = 0; i < rows; i++)
      if (!is_text(bytes->bytes + offsets[i], offsets[i + 1] - offsets[i])) return false;
    return true;
  });
}

// The text of a view: its size, and up to twelve bytes, or the first four, the number of a buffer and an offset there.
const char *text_of(const char *view, uint32_t size, const vortex::ArrayNode &node, const Blob &blob) {
  if (size <= 12) return view + 4;
  uint32_t index, offset;
  std::memcpy(&index, view + 8, sizeof index);
  std::memcpy(&offset, view + 12, sizeof offset);
  auto buffer = index < buffers_of(node) - 1 ? buffer_at(node, index, blob) : nullptr;
  if (!buffer || offset > buffer->size || size > buffer->size - offset) return nullptr;
  return std::memcmp(buffer->bytes + offset, view + 4, 4) == 0 ? buffer->bytes + offset : nullptr;
}

// Whether a node is texts by views, which stand in its last buffer.
bool has_views(const vortex::ArrayNode &node, bool nullable, size_t rows, const Blob &blob) {
  if (!is_of(node, blob, "vortex.varbinview") || !is_empty(node) || buffers_of(node) == 0 ||
      !has_validity(node, 0, 0, nullable, rows, blob))
    return false;
  auto views = buffer_at(node, buffers_of(node) - 1, blob);
  if (!views || views->size / 16 != rows || views->size % 16 != 0 || views->exponent < 4) return false;
  for (size_t i = 0; i < rows; i++) {
    uint32_t size;
    std::memcpy(&size, views->bytes + 16 * i, sizeof size);
    auto text = text_of(views->bytes + 16 * i, size, node, blob);
    if (!text || !is_text(text, size)) return false;
  }
  return true;
}

bool fits(const vortex::ArrayNode &node, const vortex::DType &type, size_t rows, const Blob &blob);

// Whether a node is codes, none of them null, of values of the type.
bool has_codes(const vortex::ArrayNode &node, const vortex::DType &type, size_t rows, const Blob &blob) {
  uint64_t told[5] = {};
  return is_of(node, blob, "vortex.dict") && buffers_of(node) == 0 && metadata_of(node, told) && told[3] == 0 &&
         children_of(node) == 2 && fits(*node.children()->Get(1), type, told[1], blob) &&
         has_integers(*node.children()->Get(0), told[2], rows, blob, [=](auto codes) {
           for (size_t i = 0; i < rows; i++)
             if (codes[i] >= told[1]) return false;
           return true;
         });
}

// Whether a node is lists of the elements of a type.
bool has_lists(const vortex::ArrayNode &node, const vortex::List &list, size_t rows, const Blob &blob) {
  uint64_t told[3] = {};
  return is_of(node, blob, "vortex.list") && buffers_of(node) == 0 && metadata_of(node, told) && list.element_type() &&
         children_of(node) >= 2 && fits(*node.children()->Get(0), *list.element_type(), told[1], blob) &&
         has_offsets(*node.children()->Get(1), told[2], rows, told[1], blob) &&
         has_validity(node, 2, 2, list.nullable(), rows, blob);
}

// Whether a node is structures of the fields of a type.
bool has_fields(const vortex::ArrayNode &node, const vortex::Struct &fields, size_t rows, const Blob &blob) {
  size_t width = fields.dtypes() ? fields.dtypes()->size() : 0;
  if (!is_of(node, blob, "vortex.struct") || !is_empty(node) || buffers_of(node) != 0 ||
      !has_validity(node, width, 0, fields.nullable(), rows, blob))
    return false;
  size_t front = children_of(node) - width;
  for (size_t i = 0; i < width; i++)
    if (!fits(*node.children()->Get(front + i), *fields.dtypes()->Get(i), rows, blob)) return false;
  return true;
}

bool fits(const vortex::ArrayNode &node, const vortex::DType &type, size_t rows, const Blob &blob) {
  if (auto kind = type.type_as_Primitive())
    return kind->ptype() < std::size(widths) && has_numbers(node, widths[kind->ptype()], rows, blob) &&
           has_validity(node, 0, 0, kind->nullable(), rows, blob);
  if (auto texts = type.type_as_Utf8())
    return has_texts(node, texts->nullable(), rows, blob) || has_views(node, texts->nullable(), rows, blob) ||
           has_codes(node, type, rows, blob);
  if (auto list = type.type_as_List()) return has_lists(node, *list, rows, blob);
  if (auto fields = type.type_as_Struct()) return has_fields(node, *fields, rows, blob);
  return false;
}

flatbuffers::DetachedBuffer pack(const vortex::Array &array) {
  vortex::ArrayT value;
  array.UnPackTo(&value);
  for (auto &told : value.buffers)
    told = vortex::Buffer(0, told.alignment_exponent(), told.compression(), told.length());
  flatbuffers::FlatBufferBuilder builder;
  builder.Finish(vortex::Array::Pack(builder, &value));
  return builder.Release();
}

}  // namespace

int main(int count, char **words) {
  if (count != 6) return std::fputs("usage: blobs TYPE BLOB ROWS IDS TO\n", stderr), 2;
  auto type_bytes = read_file(words[1]);
  auto type_message = reinterpret_cast<const uint8_t *>(type_bytes.data());
  flatbuffers::Verifier type_verifier(type_message, type_bytes.size(), 64, 1000000);
  if (!type_verifier.VerifyBuffer<vortex::DType>(nullptr)) return refuse("no type");
  auto &type = *flatbuffers::GetRoot<vortex::DType>(type_message);
  Blob known;
  std::istringstream lines(read_file(words[4]));
  for (std::string line; std::getline(lines, line);) known.ids.push_back(line);

  auto blob = read_file(words[2]);
  uint32_t length;
  if (blob.size() < sizeof length) return refuse("no length");
  std::memcpy(&length, blob.data() + blob.size() - sizeof length, sizeof length);
  if (length > blob.size() - sizeof length) return refuse("no message");
  size_t segment = blob.size() - sizeof length - length;
  // A message is read where it is aligned.
  std::vector<uint64_t> aligned((length + 7) / 8);
  std::memcpy(aligned.data(), blob.data() + segment, length);
  auto message = reinterpret_cast<const uint8_t *>(aligned.data());
  flatbuffers::Verifier verifier(message, length, 64, 1000000);
  if (!vortex::VerifyArrayBuffer(verifier)) return refuse("no array message");

  auto &array = *vortex::GetArray(message);
  if (!place(array, blob.data(), segment, known.pieces)) return refuse("a buffer past the segment");
  size_t rows = std::strtoull(words[3], nullptr, 10);
  if (!array.root() || !fits(*array.root(), type, rows, known)) return refuse("another array");

  auto packed = pack(array);
  std::ofstream out(words[5], std::ios::binary);
  for (auto &piece : known.pieces) out.write(piece.bytes, piece.size);
  uint32_t size = packed.size();
  out.write(reinterpret_cast<const char *>(packed.data()), size);
  out.write(reinterpret_cast<const char *>(&size), sizeof size);
  return out.flush() ? 0 : 1;
}
