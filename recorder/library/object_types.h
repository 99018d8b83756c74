// Of which type an object may be, as its control block has it.
#pragma once
#include <map>
#include <string>
#include <utility>

#include "modules.h"

namespace recorder {

class ObjectTypes {
public:
  explicit ObjectTypes(VirtualTables& tables) : tables(tables) {}

  // Whether a table of virtual functions at the beginning of an object made by `new` is the object's own, and not its first
  // member's: the type in the name of its control block is the table's, or a base of that.
  bool has(const char* control_block, const VirtualTable& table);

private:
  bool is_or_has_base(Word type_info, const std::string& wanted, int depth);

  VirtualTables& tables;
  std::map<std::pair<const char*, const char*>, bool> known;  // by both types' mangled names
};

}  // namespace recorder
