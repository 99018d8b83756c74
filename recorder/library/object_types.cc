#include "object_types.h"

#include <cxxabi.h>

#include <cstdlib>
#include <cstring>

namespace recorder {
namespace {

constexpr int MOST_BASES = 64;

// The type in plain words, which is the same wherever in a mangled name it stands.
std::string plain(const char* mangled) {
  int status = 0;
  char* name = abi::__cxa_demangle(mangled, nullptr, nullptr, &status);
  std::string found = name ? name : mangled;
  std::free(name);
  return found;
}

// The first argument of a template: of `std::_Sp_counted_ptr<Node*, ..>` it is `Node`.
std::string pointed_type(const std::string& control_block) {
  std::size_t begin = control_block.find('<') + 1, end = begin;
  for (int depth = 0; begin && end < control_block.size(); end++) {
    char letter = control_block[end];
    if (letter == ',' && !depth) break;
    depth += (letter == '<' || letter == '(' || letter == '{') - (letter == '>' || letter == ')' || letter == '}');
  }
  std::string type = control_block.substr(begin, end - begin);
  if (!type.empty() && type.back() == '*') type.pop_back();
  for (const char* qualifier : {" const", " volatile"})
    if (type.size() > std::strlen(qualifier) && !type.compare(type.size() - std::strlen(qualifier), type.npos, qualifier))
      type.resize(type.size() - std::strlen(qualifier));
  return type;
}

bool is_called(const char* name, const char* part) { return name && std::strstr(name, part); }

}  // namespace

bool ObjectTypes::has(const char* control_block, const VirtualTable& table) {
  auto found = known.find({control_block, table.type});
  if (found != known.end()) return found->second;
  std::string wanted = pointed_type(plain(control_block));
  bool answer = plain(table.type) == wanted || (table.type_info && is_or_has_base(table.type_info, wanted, 0));
  return known[{control_block, table.type}] = answer;
}

// (a type's description has its name second, then its only base, or flags, how many there are, and two words for each)
bool ObjectTypes::is_or_has_base(Word type_info, const std::string& wanted, int depth) {
  const char* name = tables.name_at(type_info);
  if (!name || depth > MOST_BASES) return false;
  if (plain(name) == wanted) return true;
  auto words = reinterpret_cast<const Word*>(type_info);
  const char* kind = tables.of(words[0]).type;
  if (is_called(kind, "__si_class_type_info")) return is_or_has_base(words[2], wanted, depth + 1);
  if (!is_called(kind, "__vmi_class_type_info")) return false;
  Word count = words[2] >> 32;
  for (Word base = 0; base < count && base < MOST_BASES; base++)
    if (is_or_has_base(words[3 + 2 * base], wanted, depth + 1)) return true;
  return false;
}

}  // namespace recorder
