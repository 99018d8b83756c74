#include "modules.h"

#include <link.h>
#include <pthread.h>
#include <unistd.h>

#include <algorithm>
#include <cstring>
#include <initializer_list>

#include "closed.h"
#include "control_blocks.h"
#include "reading.h"

namespace recorder {
namespace {

Word thread_from, thread_to, program_thread_from, program_thread_to;
char program_path[4096];

// What glibc keeps of a thread lies above its variables, and its own pointers with it.
constexpr Word OF_A_THREAD = 2304;

Word as_word(const void* pointer) { return reinterpret_cast<Word>(pointer); }

const char* path_of(const dl_phdr_info& info) {
  return info.dlpi_name && *info.dlpi_name ? info.dlpi_name : program_path;
}

// Whether a file is one of these libraries. (It takes no memory, as it is asked before main.)
bool is_named(const char* path, std::initializer_list<const char*> names) {
  const char* slash = std::strrchr(path, '/');
  const char* file = slash ? slash + 1 : path;
  return std::any_of(names.begin(), names.end(),
                     [&](const char* name) { return !std::strncmp(file, name, std::strlen(name)); });
}

bool is_of_system(const char* path) {
  return is_named(path, {"libc.", "ld-", "libstdc++.", "libgcc_s.", "libm."});
}

bool has_address(const dl_phdr_info& info, Word address) {
  for (int at = 0; at < info.dlpi_phnum; at++) {
    auto& part = info.dlpi_phdr[at];
    Word from = info.dlpi_addr + part.p_vaddr;
    if (part.p_type == PT_LOAD && address >= from && address < from + part.p_memsz) return true;
  }
  return false;
}

int add_module(dl_phdr_info* info, std::size_t, void* to) {
  auto& all = *static_cast<Modules*>(to);
  if (has_address(*info, as_word(&thread_from))) return all.add_own(*info), 0;
  int number = static_cast<int>(all.modules.size());
  all.modules.push_back({path_of(*info), info->dlpi_addr});
  for (int at = 0; at < info->dlpi_phnum; at++) {
    auto& part = info->dlpi_phdr[at];
    if (part.p_type == PT_GNU_RELRO) {
      all.modules.back().constant_from = info->dlpi_addr + part.p_vaddr;
      all.modules.back().constant_to = info->dlpi_addr + part.p_vaddr + part.p_memsz;
    }
    if (part.p_type != PT_LOAD || !(part.p_flags & PF_R)) continue;
    Word from = info->dlpi_addr + part.p_vaddr;
    all.segments.push_back(
        {from, from + part.p_memsz, number, !!(part.p_flags & PF_W), !!(part.p_flags & PF_X)});
  }
  return 0;
}

int add_thread_variables(dl_phdr_info* info, std::size_t, void*) {
  Word at = as_word(info->dlpi_tls_data), self = as_word(reinterpret_cast<void*>(pthread_self()));
  if (!at || at >= self || self - at >= 1 << 20) return 0;
  thread_from = std::min(thread_from, at);
  if (is_of_system(path_of(*info)) || has_address(*info, as_word(&thread_from))) return 0;
  if (!program_thread_from) program_thread_from = at;
  program_thread_from = std::min(program_thread_from, at);
  for (int part = 0; part < info->dlpi_phnum; part++)
    if (info->dlpi_phdr[part].p_type == PT_TLS)
      program_thread_to = std::max(program_thread_to, at + info->dlpi_phdr[part].p_memsz);
  return 0;
}

}  // namespace

void know_program() {
  ssize_t size = readlink("/proc/self/exe", program_path, sizeof program_path - 1);
  program_path[size > 0 ? size : 0] = 0;
  thread_from = as_word(reinterpret_cast<void*>(pthread_self()));
  thread_to = thread_from + OF_A_THREAD;
  dl_iterate_phdr(add_thread_variables, nullptr);
}

void Modules::add_own(const dl_phdr_info& info) {
  own_from = info.dlpi_addr;
  for (int at = 0; at < info.dlpi_phnum; at++) {
    auto& part = info.dlpi_phdr[at];
    if (part.p_type != PT_LOAD) continue;
    own_to = std::max(own_to, whole_pages(info.dlpi_addr + part.p_vaddr + part.p_memsz));
  }
}

bool Module::is_libc() const { return is_named(path.c_str(), {"libc."}); }
bool Module::is_of_system() const { return recorder::is_of_system(path.c_str()); }

Modules::Modules()
    : thread_from(recorder::thread_from),
      thread_to(recorder::thread_to),
      program_thread_from(recorder::program_thread_from),
      program_thread_to(recorder::program_thread_to) {
  {
    HeldLock loader;
    dl_iterate_phdr(add_module, this);
  }
  std::sort(segments.begin(), segments.end(), [](auto& a, auto& b) { return a.from < b.from; });
}

const Segment* Modules::segment_of(Word address) const {
  if (address - gap_from < gap_to - gap_from) return nullptr;
  auto after = std::upper_bound(segments.begin(), segments.end(), address,
                                [](Word word, const Segment& it) { return word < it.from; });
  Word from = after == segments.begin() ? 0 : after[-1].to;
  if (address < from) return &after[-1];
  gap_from = from;
  gap_to = after == segments.end() ? ~Word(0) : after->from;
  return nullptr;
}

bool Modules::meets(Word from, Word to) const {
  return std::any_of(segments.begin(), segments.end(), [&](auto& it) { return it.from < to && from < it.to; });
}

const VirtualTable& VirtualTables::of(Word word) {
  if (word % WORD || (!modules.has(word) && !closed_table(word))) return none;
  auto found = seen.find(word);
  if (found == seen.end()) found = seen.emplace(word, read(word)).first;
  return found->second;
}

VirtualTable VirtualTables::read(Word word) const {
  VirtualTable table;
  const Segment* segment = modules.segment_of(word);
  if (auto closed = segment ? nullptr : closed_table(word))
    return {closed->type, 0, closed->to_top, is_control_block_type(closed->type), false};
  if (!segment || word - 2 * WORD < segment->from) return table;
  auto words = reinterpret_cast<const Word*>(word);
  table.to_top = static_cast<std::ptrdiff_t>(words[-2]);
  table.type = words[-1] ? name_at(words[-1]) : nullptr;
  table.type_info = table.type ? words[-1] : 0;
  table.is_control_block = table.type && is_control_block_type(table.type);
  if (words[-1] || words[-2] || word + 5 * WORD > segment->to) return table;
  table.is_untyped = std::all_of(words, words + 5, [&](Word function) {
    const Segment* code = modules.segment_of(function);
    return code && code->is_code;
  });
  return table;
}

// The name of a type_info: its second word, a text of printable characters.
const char* VirtualTables::name_at(Word type_info) const {
  const Segment* segment = modules.segment_of(type_info);
  if (type_info % WORD || !segment || type_info + 2 * WORD > segment->to) return nullptr;
  auto words = reinterpret_cast<const Word*>(type_info);
  const Segment* text = modules.segment_of(words[1]);
  if (!modules.has(words[0]) || !text) return nullptr;
  auto name = reinterpret_cast<const char*>(words[1]);
  auto end = reinterpret_cast<const char*>(text->to);
  if (*name == '*') name++;
  const char* at = name;
  while (at<end&& * at> ' ' && *at <= '~') at++;
  return at < end && at > name && !*at ? name : nullptr;
}

}  // namespace recorder
