// Runs a script of the repository's language over libstdc++'s own shared_ptr, weak_ptr and atomic of both, and prints
// the lines that the language wants. Statements are whole here: the order in which threads take theirs is drawn by a
// seed. On standard error it tells how that order reads as a list of turns, each of one act.
//
// usage: libstdcxx SEED < SCRIPT
#include <algorithm>
#include <atomic>
#include <cstdint>
#include <cstdio>
#include <iostream>
#include <memory>
#include <new>
#include <random>
#include <set>
#include <sstream>
#include <string>
#include <vector>

namespace {

using std::string;
using std::vector;

// A pointer's place is a field: the same address for the same block and number, whatever object is there.
struct Field {
  uint64_t value = 0;
};
using Owner = std::shared_ptr<Field>;
using Watcher = std::weak_ptr<Field>;

constexpr unsigned block_count = 4095;
constexpr std::size_t slot_size = 256;

// Where control blocks lie, with their objects: each thread has a store of vacant blocks, and takes the least.
struct Pool {
  vector<char> memory = vector<char>(block_count * slot_size + slot_size);
  vector<std::set<unsigned>> stores;
  unsigned thread = 0;

  char *begin() {
    auto address = reinterpret_cast<uintptr_t>(memory.data());
    return memory.data() + (slot_size - address % slot_size) % slot_size;
  }
  void share(unsigned threads) {
    stores.assign(threads, {});
    for (unsigned block = 1; block <= block_count; ++block)
      stores[std::min((block - 1) / (block_count / threads), threads - 1)].insert(block);
  }
  bool is_empty() const { return stores[thread].empty(); }
  void *take() {
    unsigned block = *stores[thread].begin();
    stores[thread].erase(block);
    return begin() + (block - 1) * slot_size;
  }
  void give(void *slot) { stores[thread].insert(block_at(slot)); }
  unsigned block_at(const void *address) {
    return static_cast<unsigned>((static_cast<const char *>(address) - begin()) / slot_size) + 1;
  }
  bool is_vacant(unsigned block) const {
    for (auto &store : stores)
      if (store.count(block))
        return true;
    return false;
  }
} pool;

template <class T> struct FromPool {
  using value_type = T;
  FromPool() = default;
  template <class U> FromPool(const FromPool<U> &) {}
  T *allocate(std::size_t count) {
    if (count * sizeof(T) > slot_size)
      throw std::bad_alloc();
    return static_cast<T *>(pool.take());
  }
  void deallocate(T *slot, std::size_t) { pool.give(slot); }
  template <class U> bool operator==(const FromPool<U> &) const { return true; }
};

string tag; // the thread and its statement, "1.3" or "1.end"
unsigned long acts = 0, made = 0, ended = 0;

void tell(const string &answer) { std::cout << tag << ' ' << answer << '\n'; }

bool is_empty(const Owner &p) { return !p.owner_before(Owner()) && !Owner().owner_before(p); }
bool is_empty(const Watcher &w) { return !w.owner_before(Owner()) && !Owner().owner_before(w); }

// A weak pointer without an object has no place.
Watcher watch(const Owner &p) { return is_empty(p) ? Watcher() : Watcher(p); }

struct Node : std::enable_shared_from_this<Node> {
  Field fields[4];
  std::atomic<Owner> first, next;
  std::atomic<Watcher> up;
  bool enabled = false;

  Node(const vector<uint64_t> &values, bool enabled) : enabled(enabled) {
    for (std::size_t i = 0; i < values.size(); ++i)
      fields[i].value = values[i];
  }
  ~Node();
};

vector<Node *> live(block_count + 1);
std::ptrdiff_t fields_at = 0; // where an object's fields lie in its block

Field *field(unsigned block, unsigned number) {
  return reinterpret_cast<Field *>(pool.begin() + (block - 1) * slot_size + fields_at) + number;
}
unsigned number_of(const Field *place) { return static_cast<unsigned>(place - field(pool.block_at(place), 0)); }

template <class P> void leave(P old) { acts += !is_empty(old); }

Node::~Node() {
  std::ostringstream line;
  line << "end";
  for (auto &it : fields)
    line << ' ' << it.value;
  tell(line.str());
  ++ended;
  live[pool.block_at(this)] = nullptr;
  leave(first.exchange(nullptr));
  leave(next.exchange(nullptr));
  leave(up.exchange(Watcher()));
}

struct EndOfNull {
  void operator()(Field *) const {
    tell("end null");
    ++ended;
  }
};

// The object that an owner owns and points into, or the number of the refusal.
Node *inside(const Owner &p, int &refusal) {
  refusal = 6;
  if (!p)
    return nullptr;
  refusal = 7;
  Node *node = live[pool.block_at(p.get())];
  if (!node)
    return nullptr;
  Watcher of(Owner(node->shared_from_this(), node->fields));
  if (p.owner_before(of) || of.owner_before(p))
    return nullptr;
  refusal = 0;
  return node;
}

struct Name {
  string name;
  bool is_weak;
  Owner owner;
  Watcher watcher;
};

struct Thread {
  vector<vector<string>> statements;
  std::size_t done = 0;
  vector<Name> names;

  Name &name(const string &word) {
    for (auto &it : names)
      if (it.name == word)
        return it;
    throw std::runtime_error("unknown name " + word);
  }
  Name &target(const string &word, bool is_weak) {
    for (auto &it : names)
      if (it.name == word)
        return it;
    names.push_back({word, is_weak, {}, {}});
    return names.back();
  }
};

struct Machine {
  vector<Thread> threads;
  std::atomic<Owner> shared[128];
  std::atomic<Watcher> weak[128];

  void refuse(int number) {
    acts = 1;
    tell("refused " + std::to_string(number));
  }
  // The new value first, and then the old one leaves.
  void assign(Name &to, Owner value) {
    acts += !is_empty(to.owner);
    to.owner = std::move(value);
  }
  void assign(Name &to, Watcher value) {
    acts += !is_empty(to.watcher);
    to.watcher = std::move(value);
  }

  template <class P>
  void on_cell(Thread &t, const vector<string> &s, std::atomic<P> &cell, P Name::*value, bool is_weak) {
    if (s[0] == "load")
      return assign(t.target(s[1], is_weak), cell.load());
    P &x = t.name(s[2]).*value;
    if (s[0] == "store") {
      ++acts; // (the copy, then the swap)
      P old = cell.exchange(x);
      acts += !is_empty(old);
      return;
    }
    if (s[0] == "exchange") {
      x = cell.exchange(std::move(x));
      return;
    }
    if (s[0] == "holds") {
      P same = x;
      tell(std::atomic<P>(cell.load()).compare_exchange_strong(same, x) ? "holds yes" : "holds no");
      return;
    }
    P desired = t.name(s[3]).*value, held = cell.load(), expected = x;
    ++acts; // (the copy, then the compare)
    bool yes = s[0] == "compare" ? cell.compare_exchange_strong(expected, desired)
                                 : cell.compare_exchange_weak(expected, desired);
    tell(yes ? "compare yes" : "compare no");
    if (yes) {
      acts += !is_empty(held);
    } else {
      acts += !is_empty(x) + !is_empty(desired);
      x = expected;
    }
  }

  void cell_statement(Thread &t, const vector<string> &s) {
    const string &word = s[0] == "load" ? s[2] : s[1];
    auto dot = word.find('.');
    if (dot == string::npos) {
      unsigned number = std::stoul(word.substr(1));
      if (word[0] == 's')
        return on_cell(t, s, shared[number], &Name::owner, false);
      return on_cell(t, s, weak[number], &Name::watcher, true);
    }
    string member = word.substr(dot + 1);
    if (s[0] == "load")
      t.target(s[1], member == "up");
    int refusal;
    Node *node = inside(t.name(word.substr(0, dot)).owner, refusal);
    if (!node)
      return refuse(refusal);
    if (member == "up")
      return on_cell(t, s, node->up, &Name::watcher, true);
    on_cell(t, s, member == "first" ? node->first : node->next, &Name::owner, false);
  }

  void make(Thread &t, const vector<string> &s, bool enabled) {
    Name &to = t.target(s[1], false);
    if (pool.is_empty())
      return refuse(3);
    vector<uint64_t> values;
    for (std::size_t i = 2; i < s.size(); ++i)
      values.push_back(std::stoull(s[i]));
    auto node = std::allocate_shared<Node>(FromPool<Node>(), values, enabled);
    unsigned block = pool.block_at(node.get());
    fields_at = reinterpret_cast<char *>(node->fields) - (pool.begin() + (block - 1) * slot_size);
    live[block] = node.get();
    ++made;
    Field *place = node->fields;
    assign(to, Owner(std::move(node), place));
  }

  void statement(Thread &t, const vector<string> &s) {
    const string &w = s[0];
    acts = 1;
    if (w == "load" || w == "store" || w == "exchange" || w == "compare" || w == "compare_weak" || w == "holds")
      return cell_statement(t, s);
    if (w == "make" || w == "makethis")
      return make(t, s, w == "makethis");
    if (w == "null") {
      Name &to = t.target(s[1], false);
      if (pool.is_empty())
        return refuse(3);
      ++made;
      return assign(to, Owner(static_cast<Field *>(nullptr), EndOfNull(), FromPool<Field>()));
    }
    if (w == "empty" || w == "reset") {
      t.target(s[1], false).owner = Owner();
    } else if (w == "wempty" || w == "wreset") {
      t.target(s[1], true).watcher = Watcher();
    } else if (w == "copy") {
      Owner value = t.name(s[2]).owner;
      assign(t.target(s[1], false), value);
    } else if (w == "wcopy") {
      Watcher value = t.name(s[2]).watcher;
      assign(t.target(s[1], true), value);
    } else if (w == "move") {
      Owner value = std::move(t.name(s[2]).owner);
      assign(t.target(s[1], false), std::move(value));
    } else if (w == "alias") {
      alias(t, s);
    } else if (w == "weak") {
      Watcher value = watch(t.name(s[2]).owner);
      assign(t.target(s[1], true), value);
    } else if (w == "this" || w == "wthis") {
      from_this(t, s);
    } else {
      question(t, s);
    }
  }

  void alias(Thread &t, const vector<string> &s) {
    Owner from = t.name(s[2]).owner, into = t.name(s.size() == 5 ? s[3] : s[2]).owner;
    Field *place = nullptr;
    if (s.back() != "null" && into)
      place = field(pool.block_at(into.get()), std::stoul(s.back()));
    assign(t.target(s[1], false), Owner(from, place));
  }

  void from_this(Thread &t, const vector<string> &s) {
    bool is_weak = s[0] == "wthis";
    Owner of = t.name(s[2]).owner;
    Name &to = t.target(s[1], is_weak);
    int refusal;
    Node *node = inside(of, refusal);
    if (node && !node->enabled)
      refusal = 8;
    if (refusal)
      return refuse(refusal);
    Owner value(node->shared_from_this(), node->fields);
    if (is_weak)
      return assign(to, Watcher(value));
    assign(to, std::move(value));
  }

  void question(Thread &t, const vector<string> &s) {
    const string &w = s[0];
    if (w == "lock" || w == "upgrade") {
      Watcher from = t.name(s[2]).watcher;
      Name &to = t.target(s[1], false);
      Owner value = from.lock();
      if (w == "upgrade" && is_empty(value))
        return refuse(5);
      tell(w + (is_empty(value) ? " empty" : " owner"));
      return assign(to, std::move(value));
    }
    Name &x = t.name(s[1]);
    if (w == "count" || w == "wcount")
      return tell("count " + std::to_string(w == "count" ? x.owner.use_count() : x.watcher.use_count()));
    if (w == "expired")
      return tell(x.watcher.expired() ? "expired yes" : "expired no");
    if (w == "place") {
      auto place = x.owner.get();
      return tell(place ? "place " + std::to_string(pool.block_at(place)) + "." + std::to_string(number_of(place))
                        : "place null");
    }
    if (w == "same")
      return tell(x.owner == t.name(s[2]).owner ? "same yes" : "same no");
    if (w == "before")
      return tell(is_before(x, t.name(s[2])) ? "before yes" : "before no");
    int refusal;
    Node *node = inside(x.owner, refusal);
    if (!node)
      return refuse(refusal);
    tell("read " + std::to_string(x.owner->value));
  }

  static bool is_before(const Name &x, const Name &y) {
    if (x.is_weak)
      return y.is_weak ? x.watcher.owner_before(y.watcher) : x.watcher.owner_before(y.owner);
    return y.is_weak ? x.owner.owner_before(y.watcher) : x.owner.owner_before(y.owner);
  }

  void step(unsigned number) {
    Thread &t = threads[number];
    pool.thread = number;
    const auto &s = t.statements[t.done++];
    tag = std::to_string(number + 1) + "." + std::to_string(t.done);
    statement(t, s);
  }

  void finish(unsigned number) {
    Thread &t = threads[number];
    while (t.done < t.statements.size())
      step(number);
    pool.thread = number;
    tag = std::to_string(number + 1) + ".end";
    while (!t.names.empty()) {
      t.names.back().owner.reset();
      t.names.back().watcher.reset();
      t.names.pop_back();
    }
  }

  vector<struct Left> left();
  void census();
};

// A handle that is left: in a free cell, or in a member of an object that is.
struct Left {
  Watcher of;
  long owners; // how many there are, where it is one, and else 0
};

// All handles that are left, those of one block in a row and in the blocks' order, as control blocks lie in it.
vector<Left> Machine::left() {
  vector<Left> all;
  auto owner = [&](const Owner &p) {
    if (!is_empty(p))
      all.push_back({Watcher(p), p.use_count() - 1}); // (this copy is one)
  };
  auto watcher = [&](const Watcher &w) {
    if (!is_empty(w))
      all.push_back({w, 0});
  };
  for (auto &it : shared)
    owner(it.load());
  for (auto &it : weak)
    watcher(it.load());
  for (Node *node : live)
    if (node) {
      owner(node->first.load());
      owner(node->next.load());
      watcher(node->up.load());
    }
  std::stable_sort(all.begin(), all.end(), [](const Left &a, const Left &b) { return a.of.owner_before(b.of); });
  return all;
}

void Machine::census() {
  auto all = left();
  auto it = all.begin();
  for (unsigned block = 1; block <= block_count; ++block) {
    if (pool.is_vacant(block))
      continue;
    long owners = 0, weaks = 0;
    for (Watcher of = it == all.end() ? Watcher() : it->of; it != all.end() && !of.owner_before(it->of); ++it) {
      owners = std::max(owners, it->owners);
      weaks += it->owners == 0;
    }
    std::cout << "block " << block << " owners " << owners << " weaks " << weaks << '\n';
  }
  std::cout << "made " << made << " ended " << ended << " left " << made - ended << '\n';
}

Machine *read_script() {
  auto *machine = new Machine;
  machine->threads.emplace_back();
  for (string line; std::getline(std::cin, line);) {
    std::istringstream words(line);
    vector<string> s;
    for (string word; words >> word;)
      s.push_back(word);
    if (s.empty() || s[0][0] == '#')
      continue;
    if (s[0] == "thread")
      machine->threads.emplace_back();
    else
      machine->threads.back().statements.push_back(s);
  }
  return machine;
}

} // namespace

int main(int count, char **words) {
  auto *machine = read_script(); // (never freed: what is left in cells stays)
  auto threads = static_cast<unsigned>(machine->threads.size());
  pool.share(threads);
  std::mt19937 chance(count > 1 ? std::stoul(words[1]) : 0);
  unsigned long whole = 0;
  for (auto &it : machine->threads)
    whole += it.statements.size();
  for (unsigned long left = threads > 1 ? chance() % (whole + 1) : 0; left > 0; --left) {
    unsigned number = chance() % threads;
    if (machine->threads[number].done == machine->threads[number].statements.size())
      continue;
    machine->step(number);
    for (; acts > 0; --acts)
      std::cerr << number + 1 << ' ';
  }
  for (unsigned number = 0; number < threads; ++number)
    machine->finish(number);
  machine->census();
}
