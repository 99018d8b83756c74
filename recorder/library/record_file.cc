#include "record_file.h"

#include <fcntl.h>
#include <sys/socket.h>
#include <sys/un.h>
#include <unistd.h>

#include <algorithm>
#include <cerrno>
#include <climits>
#include <cstdarg>
#include <cstdio>
#include <cstring>

#include "closed.h"
#include "kept_file.h"
#include "reading.h"
#include "spots.h"

namespace recorder {
namespace {

KeptFile way_out;
char socket_path[sizeof sockaddr_un::sun_path];
char record_path[4096];
char buffer[1 << 16];  // (in place of memory that may be used up)
bool is_begun = false;

// A connection to the socket; -1 where there is none.
int connected() {
  sockaddr_un address{AF_UNIX, {}};
  std::strcpy(address.sun_path, socket_path);
  int file = *socket_path ? socket(AF_UNIX, SOCK_STREAM | SOCK_CLOEXEC, 0) : -1;
  if (file < 0 || !connect(file, reinterpret_cast<sockaddr*>(&address), sizeof address)) return file;
  close(file);
  return -1;
}

// One record. (It is written without stdio, whose locks a thread that stands still may hold.)
class Output {
public:
  explicit Output(int number) : file(way_out.number()), is_socket(file >= 0) {
    name_files(number);
    is_begun = true;
    if (is_socket)
      say("record %s\n", std::strrchr(final_path, '/') + 1);
    else
      file = open(partial_path, O_WRONLY | O_CREAT | O_TRUNC | O_CLOEXEC, 0600);
    is_whole = file >= 0;
  }
  // One that isn't whole stays away: it has no last line, or no name.
  ~Output() {
    flush();
    is_begun = false;
    if (is_socket || file < 0) return;
    is_whole &= !close(file);
    if (!is_whole || rename(partial_path, final_path)) unlink(partial_path);
  }
  Output(const Output&) = delete;

  // Of numbers and short words.
  __attribute__((format(printf, 2, 3))) void say(const char* format, ...) {
    if (sizeof buffer - used < MOST_OF_A_LINE) flush();
    va_list rest;
    va_start(rest, format);
    int size = std::vsnprintf(buffer + used, MOST_OF_A_LINE, format, rest);
    va_end(rest);
    if (size < 0 || size >= static_cast<int>(MOST_OF_A_LINE))
      is_whole = false;
    else
      used += size;
  }
  // After a space.
  void say_address(Word address) {
    char digits[24];
    char* const end = digits + sizeof digits;
    char* at = end;
    do
      *--at = DIGITS[address % 16];
    while (address /= 16);
    *--at = ' ';
    if (sizeof buffer - used < sizeof digits) flush();
    std::memcpy(buffer + used, at, end - at);
    used += end - at;
  }
  // The lowest bytes of a number, the least first, each by two hexadecimal digits.
  void say_bytes(std::ptrdiff_t number, int bytes) {
    if (sizeof buffer - used < 2 * sizeof number) flush();
    for (Word rest = static_cast<Word>(number); bytes-- > 0; rest >>= 8) {
      buffer[used++] = DIGITS[rest >> 4 & 15];
      buffer[used++] = DIGITS[rest & 15];
    }
  }
  void say_text(const char* words) {
    for (std::size_t left = std::strlen(words); left;) {
      if (used == sizeof buffer) flush();
      std::size_t part = std::min(left, sizeof buffer - used);
      std::memcpy(buffer + used, words, part);
      used += part, words += part, left -= part;
    }
  }

private:
  static constexpr std::size_t MOST_OF_A_LINE = 256;
  static constexpr char DIGITS[] = "0123456789abcdef";

  void name_files(int number) {
    int size = std::snprintf(final_path, sizeof final_path, "%s.%d", record_path, getpid());
    if (number) std::snprintf(final_path + size, sizeof final_path - size, ".%d", number);
    std::snprintf(partial_path, sizeof partial_path, "%s.part", final_path);
  }
  void flush() {
    for (std::size_t done = 0; is_whole && done < used;) {
      ssize_t wrote = is_socket ? send(file, buffer + done, used - done, MSG_NOSIGNAL)
                                : write(file, buffer + done, used - done);
      if (wrote < 0 && errno == EINTR) continue;
      is_whole = wrote > 0;
      if (is_whole) done += wrote;
    }
    used = 0;
  }

  char final_path[sizeof record_path + 32], partial_path[sizeof final_path + 8];
  std::size_t used = 0;
  int file;
  bool is_socket, is_whole = true;
};

const char* name_of(ControlBlock::Kind kind) {
  static const char* const KINDS[] = {"in-place", "plain", "deleter", "array"};
  return KINDS[kind];
}

void write_making(Output& out, const Snapshot& all, const ControlBlock& first) {
  out.say("making %s %d %zu ", name_of(first.kind), all.chunks[first.chunk].is_pool, first.object_end - first.object);
  out.say_text(first.type ? first.type : "-");
  out.say_text(" ");
  out.say_text(first.dynamic ? first.dynamic : "-");
  for (int at = 0; first.trace && at < first.trace->count; at++)
    out.say_address(first.trace->frames[at]);
  if (first.told) out.say_text("\ntold "), out.say_text(first.told);
  out.say_text("\n");
}

void write_spot(Output& out, const Spot& it) {
  static const char* const KINDS[] = {"deleter", "epoll", "heap", "kernel", "mapped", "object", "stack", "static", "thread-local"};
  out.say("spot %s %d %td %td ", KINDS[it.kind], it.number, it.offset, it.inner);
  out.say("%d %d %c", it.is_uncertain, it.is_of_handle, it.maker.kind);
  if (it.maker.is_type())
    out.say_text(" "), out.say_text(reinterpret_cast<const char*>(it.maker.word));
  else
    out.say_address(it.maker.word);
  out.say_text("\n");
}

// A number of each of so many rows, in one line: of 4 bytes (i) or of 8 (q). It stands once where it is that of all.
template <typename Value>
void write_column(Output& out, const char* table, const char* column, std::size_t count, Value value) {
  auto number = [&](std::size_t row) { return static_cast<std::ptrdiff_t>(value(row)); };
  std::ptrdiff_t least = count ? number(0) : 0, greatest = least;
  for (std::size_t row = 1; row < count; row++) {
    least = std::min(least, number(row));
    greatest = std::max(greatest, number(row));
  }
  bool is_short = least >= INT_MIN && greatest <= INT_MAX;
  std::size_t written = least == greatest ? std::min<std::size_t>(count, 1) : count;
  out.say("%s.%s %zu %c ", table, column, count, is_short ? 'i' : 'q');
  for (std::size_t row = 0; row < written; row++) out.say_bytes(number(row), is_short ? 4 : 8);
  out.say_text("\n");
}

using Rows = std::vector<std::pair<int, Row>>;  // each with the number of what lies there

void write_rows(Output& out, const char* table, const Rows& rows) {
  auto column = [&](const char* name, auto value) {
    write_column(out, table, name, rows.size(), [&](std::size_t row) { return value(rows[row].second); });
  };
  column("object", [](const Row& it) { return it.object; });
  column("spot", [](const Row& it) { return it.spot; });
  column("byte", [](const Row& it) { return it.byte; });
  column("memory", [](const Row& it) { return it.memory; });
}

void write_blocks(Output& out, const Snapshot& all, const Spots& spots) {
  for (int first : spots.makings) write_making(out, all, all.blocks[first]);
  auto column = [&](const char* name, auto value) { write_column(out, "blocks", name, all.blocks.size(), value); };
  column("making", [&](std::size_t row) { return spots.making_of(static_cast<int>(row)); });
  column("at", [&](std::size_t row) { return all.blocks[row].at; });
  column("uses", [&](std::size_t row) { return all.blocks[row].uses; });
  column("weaks", [&](std::size_t row) { return all.blocks[row].weaks; });
}

// All that lies somewhere: handles in the order of their places, the others as they were found.
void write_pointers(Output& out, const Snapshot& all, Spots& spots) {
  Rows handles = spots.rows_of(all.handles, true);
  Rows raw = spots.rows_of(all.raw_pointers, false), links = spots.rows_of(all.links, false);
  spots.sort(handles);
  for (auto& it : spots.spots) write_spot(out, it);
  auto handle = [&](std::size_t row) -> auto& { return all.handles[handles[row].first]; };
  write_column(out, "handles", "kind", handles.size(), [&](std::size_t row) { return handle(row).kind; });
  write_column(out, "handles", "block", handles.size(), [&](std::size_t row) { return handle(row).block; });
  write_rows(out, "handles", handles);
  auto pointer = [&](std::size_t row) -> auto& { return all.raw_pointers[row]; };
  auto to_byte = [&](std::size_t row) { return pointer(row).word - all.blocks[pointer(row).to].object; };
  write_column(out, "raw", "to", raw.size(), [&](std::size_t row) { return pointer(row).to; });
  write_column(out, "raw", "to_byte", raw.size(), to_byte);
  write_rows(out, "raw", raw);
  write_column(out, "links", "to", links.size(), [&](std::size_t row) { return all.links[row].to; });
  write_column(out, "links", "is_number", links.size(), [&](std::size_t row) { return all.links[row].is_number; });
  write_column(out, "links", "is_sole", links.size(), [&](std::size_t row) { return all.links[row].is_sole; });
  write_rows(out, "links", links);
}

void write_module(Output& out, Word base, const char* path) {
  out.say("module %zx ", base);
  out.say_text(path);
  out.say_text("\n");
}

}  // namespace

bool know_way_out(const char* socket, const char* path) {
  if (!path || std::strlen(path) >= sizeof record_path || !std::strchr(path, '/')) return false;
  std::strcpy(record_path, path);
  if (socket && std::strlen(socket) < sizeof socket_path) std::strcpy(socket_path, socket);
  return true;
}

void open_way_out() { way_out.keep(connected()); }

void close_way_out() { way_out.close(); }

void write_record(int number, const Snapshot& all, const char* when, long began) {
  Output out(number);
  out.say("recorded %s %s\n", hooked ? "hooks" : "scan", when);
  for (auto& it : all.modules.modules) write_module(out, it.base, it.path.c_str());
  for (std::size_t place = 0; place < closed_libraries(); place++) {
    auto& it = closed_library(place);
    if (lay_alone(place) && !all.modules.meets(it.from, it.to)) write_module(out, it.base, it.path);
  }
  Spots spots(all);
  write_blocks(out, all, spots);
  write_pointers(out, all, spots);
  for (std::size_t place = 0; place < all.closed_blocks.size(); place++)
    if (std::size_t count = all.closed_blocks[place]) {
      out.say("closed %zu ", count);
      out.say_text(closed_library(place).path);
      out.say_text(lay_alone(place) ? "\n" : " or another library\n");
    }
  out.say("untyped %zu\nlost %zu\n", all.untyped_blocks, all.lost_handles);
  out.say("unread %zu\n", all.unread_threads);
  for (auto& [where, count] : all.unseen_blocks) {
    out.say("unseen %s %zu %s ", where.first == Area::STATIC ? "static" : "shared", count, name_of(kind_of(where.second)));
    out.say_text(where.second);
    out.say_text("\n");
  }
  out.say("mapped_bytes %zu\n", all.mapped_bytes);
  out.say("milliseconds %ld\nend\n", milliseconds_now() - began);
}

void write_refusal(int number, const char* why) {
  if (is_begun) way_out.close();  // a record was given up within
  Output out(number);
  out.say_text("refused ");
  out.say_text(why);
  out.say_text("\nend\n");
}

}  // namespace recorder
