// Reads .eh_frame, of which each module has a table that is sorted by functions.
#include "unwinding.h"

#include <link.h>

#include <cstring>

namespace recorder {
namespace {

constexpr unsigned BASE_REGISTER = 6, STACK_REGISTER = 7, RETURN_ADDRESS = 16;

// Reads numbers, one after another.
class Reader {
public:
  Reader(Word from, Word to) : at(from), end(to) {}

  template <typename Number>
  Number fixed() {
    Number number;
    std::memcpy(&number, reinterpret_cast<const void*>(at), sizeof number);
    at += sizeof number;
    return number;
  }
  std::uint64_t unsigned_number() {
    std::uint64_t number = 0;
    for (int shift = 0;; shift += 7) {
      auto byte = fixed<unsigned char>();
      number |= static_cast<std::uint64_t>(byte & 127) << shift;
      if (byte < 128) return number;
    }
  }
  std::int64_t signed_number() {
    std::uint64_t number = 0;
    for (int shift = 0;;) {
      auto byte = fixed<unsigned char>();
      number |= static_cast<std::uint64_t>(byte & 127) << shift;
      shift += 7;
      if (byte >= 128) continue;
      if (byte & 64 && shift < 64) number |= ~std::uint64_t(0) << shift;
      return static_cast<std::int64_t>(number);
    }
  }
  // Of an encoding's lower half.
  Word encoded(unsigned char encoding) {
    switch (encoding & 15) {
      case 0x2: return fixed<std::uint16_t>();
      case 0x3: return fixed<std::uint32_t>();
      case 0xA: return static_cast<Word>(static_cast<std::int64_t>(fixed<std::int16_t>()));
      case 0xB: return static_cast<Word>(static_cast<std::int64_t>(fixed<std::int32_t>()));
      default: return fixed<Word>();
    }
  }
  bool is_at_end() const { return at >= end; }

  Word at, end;
};

// What all functions of a compilation have in common.
struct Common {
  std::uint64_t code_factor = 1;
  std::int64_t data_factor = 1;
  unsigned char encoding = 0;
  bool has_lengths = false, is_of_signals = false;
  Word from = 0, to = 0;  // its instructions
};

Common common_of(Word entry) {
  Common common;
  Reader reader(entry, 0);
  auto size = reader.fixed<std::uint32_t>();
  common.to = reader.at + size;
  reader.fixed<std::uint32_t>();
  auto version = reader.fixed<unsigned char>();
  auto letters = reinterpret_cast<const char*>(reader.at);
  reader.at += std::strlen(letters) + 1;
  common.code_factor = reader.unsigned_number();
  common.data_factor = reader.signed_number();
  if (version == 1)
    reader.fixed<unsigned char>();
  else
    reader.unsigned_number();
  common.has_lengths = *letters == 'z';
  Word after = common.has_lengths ? reader.unsigned_number() : 0;
  common.from = after + reader.at;
  for (; *letters; letters++) {
    if (*letters == 'R') common.encoding = reader.fixed<unsigned char>();
    if (*letters == 'L') reader.fixed<unsigned char>();
    if (*letters == 'S') common.is_of_signals = true;
    if (*letters == 'P') reader.encoded(reader.fixed<unsigned char>());
  }
  return common;
}

// The row of the table of call frame information that holds at one place.
class Row {
public:
  void run(Reader reader, const Common& common, Word begin, Word code) {
    common_factors = &common;
    at = begin;
    while (!reader.is_at_end() && is_known) {
      auto byte = reader.fixed<unsigned char>();
      if (!advance(byte, reader)) instruction(byte, reader);
      if (at > code) return;
      rule = next;
    }
  }
  void end_common() { first = next; }

  Rule rule, next;
  bool is_known = true;

private:
  // The instructions that lead to the next row.
  bool advance(unsigned char byte, Reader& reader) {
    Word factor = common_factors->code_factor;
    if (byte >> 6 == 1)
      at += (byte & 63) * factor;
    else if (byte == 0x02)
      at += reader.fixed<unsigned char>() * factor;
    else if (byte == 0x03)
      at += reader.fixed<std::uint16_t>() * factor;
    else if (byte == 0x04)
      at += reader.fixed<std::uint32_t>() * factor;
    else
      return false;
    return true;
  }

  void define(std::uint64_t reg, std::int64_t bytes) {
    next.kind = reg == STACK_REGISTER ? Rule::BY_STACK : reg == BASE_REGISTER ? Rule::BY_BASE : Rule::END;
    next.caller_stack = static_cast<int>(bytes);
  }
  void save(std::uint64_t reg, std::int64_t bytes) {
    if (reg != BASE_REGISTER) return;
    next.is_base_by_base = false;
    next.base_at = static_cast<int>(bytes);
  }
  void restore(std::uint64_t reg) {
    if (reg != BASE_REGISTER) return;
    next.is_base_by_base = first.is_base_by_base;
    next.base_at = first.base_at;
  }
  // A function that aligns its stack saves these by its base: `base + bytes`, and for the stack the word there.
  void by_expression(Reader& reader, bool is_stack, std::uint64_t reg) {
    auto size = reader.unsigned_number();
    Reader inner(reader.at, reader.at + size);
    reader.at += size;
    if (!is_stack && reg != BASE_REGISTER) return;
    bool is_by_base = inner.fixed<unsigned char>() == 0x70 + BASE_REGISTER;
    auto bytes = is_by_base ? inner.signed_number() : 0;
    bool is_read = is_by_base && !inner.is_at_end() && inner.fixed<unsigned char>() == 0x06;
    if (!is_by_base || is_read != is_stack || !inner.is_at_end()) {
      if (is_stack) next.kind = Rule::END;
      if (!is_stack) is_known = false;
    } else if (is_stack) {
      next.kind = Rule::ALIGNED;
      next.caller_stack = static_cast<int>(bytes);
    } else {
      next.is_base_by_base = true;
      next.base_at = static_cast<int>(bytes);
    }
  }

  void instruction(unsigned char byte, Reader& reader) {
    auto factor = common_factors->data_factor;
    if (byte >> 6 == 2) return save(byte & 63, static_cast<std::int64_t>(reader.unsigned_number()) * factor);
    if (byte >> 6 == 3) return restore(byte & 63);
    switch (byte) {
      case 0x00: return;
      case 0x05: {  // offset_extended
        auto reg = reader.unsigned_number();
        return save(reg, static_cast<std::int64_t>(reader.unsigned_number()) * factor);
      }
      case 0x06: return restore(reader.unsigned_number());
      case 0x07: return undefined(reader.unsigned_number());
      case 0x08: reader.unsigned_number(); return;  // same_value
      case 0x0A: return remember();
      case 0x0B: return recall();
      case 0x0C: {  // def_cfa
        auto reg = reader.unsigned_number();
        return define(reg, static_cast<std::int64_t>(reader.unsigned_number()));
      }
      case 0x0D: return define(reader.unsigned_number(), next.caller_stack);
      case 0x0E: next.caller_stack = static_cast<int>(reader.unsigned_number()); return;
      case 0x0F: return by_expression(reader, true, 0);
      case 0x10: {  // expression
        auto reg = reader.unsigned_number();
        return by_expression(reader, false, reg);
      }
      case 0x2E: reader.unsigned_number(); return;  // GNU_args_size
      default: is_known = false;
    }
  }

  void undefined(std::uint64_t reg) {
    if (reg == RETURN_ADDRESS) is_known = false;
  }
  void remember() {
    if (depth < MOST_REMEMBERED) remembered[depth++] = next;
    else is_known = false;
  }
  void recall() {
    if (depth) next = remembered[--depth];
    else is_known = false;
  }

  static constexpr int MOST_REMEMBERED = 8;
  Rule first, remembered[MOST_REMEMBERED];
  int depth = 0;
  Word at = 0;
  const Common* common_factors = nullptr;
};

struct Search {
  Word code, table;
};

// The sorted table of the module that has this code.
int find_table(dl_phdr_info* info, std::size_t, void* to) {
  auto& search = *static_cast<Search*>(to);
  Word table = 0;
  bool is_here = false;
  for (int at = 0; at < info->dlpi_phnum; at++) {
    auto& part = info->dlpi_phdr[at];
    Word from = info->dlpi_addr + part.p_vaddr;
    if (part.p_type == PT_GNU_EH_FRAME) table = from;
    if (part.p_type == PT_LOAD) is_here |= search.code - from < part.p_memsz;
  }
  if (is_here) search.table = table;
  return is_here;
}

// The description of the function that has this code, by the table; 0 where none has.
Word description_of(Word code, Word table) {
  Reader reader(table, 0);
  auto head = reader.fixed<std::uint32_t>();
  if (head >> 16 != 0x3B03) return 0;  // other encodings than all linkers write
  reader.encoded(static_cast<unsigned char>(head >> 8));
  auto count = reader.fixed<std::uint32_t>();
  struct Entry {
    std::int32_t function, description;
  };
  auto entries = reinterpret_cast<const Entry*>(reader.at);
  std::uint32_t low = 0, high = count;
  while (low < high) {
    std::uint32_t middle = low + (high - low) / 2;
    if (table + static_cast<Word>(static_cast<long>(entries[middle].function)) <= code)
      low = middle + 1;
    else
      high = middle;
  }
  return low ? table + static_cast<Word>(static_cast<long>(entries[low - 1].description)) : 0;
}

}  // namespace

Rule rule_of(Word code, Word& function) {
  function = 0;
  code--;  // (the call is before the place that it returns to)
  Search search{code, 0};
  dl_iterate_phdr(find_table, &search);
  Word description = search.table ? description_of(code, search.table) : 0;
  if (!description) return {};
  Reader reader(description, 0);
  auto size = reader.fixed<std::uint32_t>();
  reader.end = reader.at + size;
  Word place = reader.at;
  Common common = common_of(place - reader.fixed<std::uint32_t>());
  Word begin_at = reader.at;
  Word begin = reader.encoded(common.encoding) + ((common.encoding & 0x70) == 0x10 ? begin_at : 0);
  Word bytes = reader.encoded(common.encoding & 15);
  if (size == ~0u || code - begin >= bytes || common.is_of_signals) return {};
  if (common.has_lengths) {
    auto skipped = reader.unsigned_number();
    reader.at += skipped;
  }
  function = begin;
  Row row;
  row.run(Reader(common.from, common.to), common, begin, ~Word(0));
  row.end_common();
  row.run(reader, common, begin, code);
  return row.is_known ? row.rule : Rule{};
}

}  // namespace recorder
