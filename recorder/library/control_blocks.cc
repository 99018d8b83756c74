#include "control_blocks.h"

#include <link.h>
#include <sys/uio.h>
#include <unistd.h>

#include <algorithm>
#include <cstring>
#include <initializer_list>

#include "system_calls.h"

namespace recorder {
namespace {

// The answers given last: a word or the address of a page, and in its lowest bit the answer.
class Answers {
public:
  bool find(Word question, bool& answer) const {
    Word found = of(question).load(std::memory_order_relaxed);
    answer = found & 1;
    return (found & ~Word(1)) == question;
  }
  bool add(Word question, bool answer) {
    of(question).store(question | Word(answer), std::memory_order_relaxed);
    return answer;
  }

private:
  static std::size_t place(Word question) { return question * 0x9E3779B97F4A7C15ull >> 50; }
  std::atomic<Word>& of(Word question) { return last[place(question)]; }
  const std::atomic<Word>& of(Word question) const { return last[place(question)]; }

  std::atomic<Word> last[1 << 14];
};

Answers tables, pages;

int has_page(dl_phdr_info* info, std::size_t, void* page) {
  Word from = *static_cast<Word*>(page);
  for (int at = 0; at < info->dlpi_phnum; at++) {
    auto& part = info->dlpi_phdr[at];
    Word begin = page_of(info->dlpi_addr + part.p_vaddr);
    if (part.p_type == PT_LOAD && from - begin < part.p_memsz + PAGE) return 1;
  }
  return 0;
}

// (a page that was none of a module's may become one: then a place in code is learnt later)
bool is_of_a_module(Word word) {
  Word page = page_of(word);
  bool answer = false;
  return pages.find(page, answer) ? answer : pages.add(page, dl_iterate_phdr(has_page, &page) != 0);
}

bool begins_with_any(const char* text, std::initializer_list<const char*> beginnings) {
  return std::any_of(beginnings.begin(), beginnings.end(),
                     [&](const char* beginning) { return !std::strncmp(text, beginning, std::strlen(beginning)); });
}

// What is left of a control block whose destructor has run.
bool is_base_of_blocks(const char* mangled) {
  return begins_with_any(mangled, {"St16_Sp_counted_baseI", "N5boost6detail15sp_counted_baseE"});
}

// Before the functions lies the pointer to the type, whose second word is the pointer to its name.
bool has_type_of_a_block(Word word) {
  Word type = 0, name = 0;
  char text[40] = {};
  return read_safely(word - WORD, &type, WORD) && read_safely(type + WORD, &name, WORD) &&
         read_safely(name, text, sizeof text - 1) && (is_control_block_type(text) || is_base_of_blocks(text));
}

}  // namespace

bool read_safely(Word from, void* to, std::size_t bytes) {
  iovec local{to, bytes}, remote{reinterpret_cast<void*>(from), bytes};
  SystemCalls calls;
  if (!calls.are_allowed()) return false;
  return process_vm_readv(getpid(), &local, 1, &remote, 1, 0) == static_cast<ssize_t>(bytes);
}

bool is_control_block_type(const char* mangled) {
  return begins_with_any(mangled, {"St23_Sp_counted_ptr_inplaceI", "St15_Sp_counted_ptrI", "St19_Sp_counted_deleterI",
                                   "St17_Sp_counted_arrayI"}) ||
         is_boost_block_type(mangled);
}

bool is_boost_block_type(const char* mangled) {
  return begins_with_any(mangled, {"N5boost6detail17sp_counted_impl_pI", "N5boost6detail18sp_counted_impl_pdI",
                                   "N5boost6detail19sp_counted_impl_pdaI"});
}

bool is_control_block_table(Word word) {
  bool answer = false;
  if (word % WORD || word < PAGE || word >> 47) return false;
  if (tables.find(word, answer)) return answer;
  return is_of_a_module(word) && tables.add(word, has_type_of_a_block(word));
}

}  // namespace recorder
