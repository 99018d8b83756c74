// The program and its libraries in memory, and the names of types in them.
#pragma once
#include <string>
#include <unordered_map>
#include <vector>

#include "base.h"

struct dl_phdr_info;

namespace recorder {

struct Module {
  std::string path;
  Word base;
  Word constant_from = 0, constant_to = 0;  // what may be written only while it is loaded

  bool is_libc() const;
  bool is_of_system() const;  // what each program of C++ is linked with
};

struct Segment {
  Word from, to;
  int module;
  bool is_writable, is_code;
};

class Modules {
public:
  Modules();  // reads what is loaded; no thread may stand still yet

  void add_own(const dl_phdr_info& info);

  const Segment* segment_of(Word address) const;
  bool has(Word address) const { return segment_of(address) != nullptr; }
  bool meets(Word from, Word to) const;  // whether any lies between these

  std::vector<Module> modules;
  std::vector<Segment> segments;  // in the order of their addresses
  Word own_from = 0, own_to = 0;  // the recorder itself, which is none of them

  // The thread-local variables of the main thread, and within these what isn't of the system's.
  Word thread_from = 0, thread_to = 0, program_thread_from = 0, program_thread_to = 0;

private:
  mutable Word gap_from = 0, gap_to = 0;  // where no segment lies: each word of memory is asked about, and most are alike
};

// What a word says that may be a pointer to a table of virtual functions.
struct VirtualTable {
  const char* type = nullptr;  // its mangled name; null where the word is no such pointer, or has no type
  Word type_info = 0;          // its description; 0 where its library was closed
  std::ptrdiff_t to_top = 0;
  bool is_control_block = false;
  bool is_untyped = false;  // five virtual functions and no type, as a control block has it without RTTI
};

class VirtualTables {
public:
  explicit VirtualTables(const Modules& modules) : modules(modules) {}
  const VirtualTable& of(Word word);
  const char* name_at(Word type_info) const;  // null where no type is described

private:
  VirtualTable read(Word word) const;

  const Modules& modules;
  std::unordered_map<Word, VirtualTable> seen;
  VirtualTable none;
};

// Before main, by its thread: where the program's file and this thread's variables lie.
void know_program();

}  // namespace recorder
