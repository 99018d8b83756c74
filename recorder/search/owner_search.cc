// Which objects of a graph of owners leak, and the knots of these. Objects are numbers from 1; knots are alike where
// their objects are of the same kinds and their owners lead between the same places, under the same labels.
#include <algorithm>
#include <map>
#include <numeric>
#include <vector>

namespace {

enum Verdict : unsigned char { LEAKED, KEPT, ENDED, LOST };  // (what only lost owners keep is lost)

struct Graph {
  int count, owners;
  const int *from, *to, *label;  // of each owner
};

// By object its row of numbers, one row after another.
class Rows {
public:
  template <typename Row>
  Rows(int rows, int numbers, Row row_of) : ends(static_cast<std::size_t>(rows) + 1), all(static_cast<std::size_t>(numbers)) {
    int rest = 0;
    for (int at = 0; at < numbers; at++)
      if (row_of(at) >= 0) ends[row_of(at)]++;
    for (auto& end : ends) end = rest += end;
    all.resize(static_cast<std::size_t>(rest));
    for (int at = numbers; at-- > 0;)
      if (row_of(at) >= 0) all[--ends[row_of(at)]] = at;
  }

  // (each end has become where its row begins)
  const int* begin(int row) const { return all.data() + ends[row]; }
  const int* end(int row) const { return row + 1 < count() ? begin(row + 1) : all.data() + all.size(); }
  int count() const { return static_cast<int>(ends.size()); }

private:
  std::vector<int> ends, all;
};

class Search {
public:
  Search(const Graph& graph, std::vector<int> roots, const std::vector<int>& lost)
      : graph(graph),
        owners_from(graph.count + 1, graph.owners, [&](int owner) { return graph.from[owner]; }),
        verdict(static_cast<std::size_t>(graph.count) + 1, LEAKED) {
    reach(roots, KEPT);
    reach(lost, LOST);
    roots.insert(roots.end(), lost.begin(), lost.end());
    end_without_owners(roots);
    find_parts();
    find_knots();
    find_shapes();
  }

  // Knots that are alike and have an object that is told: of each such group the first knot, and how many they are.
  void group(const int* kind, const unsigned char* is_told) {
    std::map<std::vector<int>, std::size_t> known;
    first_of_group.clear(), count_of_group.clear();
    std::vector<int> key;
    for (std::size_t knot = 0; knot < shape.size(); knot++) {
      const int *begin = members.data() + first_member[knot], *end = members.data() + first_member[knot + 1];
      if (std::none_of(begin, end, [&](int object) { return is_told[object]; })) continue;
      key.assign({shape[knot], is_owned[knot]});
      std::transform(begin, end, std::back_inserter(key), [&](int object) { return kind[object]; });
      auto made = known.emplace(key, first_of_group.size());
      if (made.second) first_of_group.push_back(static_cast<int>(knot)), count_of_group.push_back(0);
      count_of_group[made.first->second]++;
    }
  }

  Graph graph;
  Rows owners_from;
  std::vector<unsigned char> verdict;          // by object
  std::vector<int> members, first_member{0};   // of all knots, each in the order of its numbers
  std::vector<int> ties, first_tie{0};         // of all knots: owners, in their order
  std::vector<int> shape;                      // by knot: a number for each that differs
  std::vector<unsigned char> is_owned;         // by knot: by another object
  std::vector<int> first_of_group, count_of_group;

private:
  void reach(const std::vector<int>& from, Verdict by) {
    std::vector<int> todo;
    auto add = [&](int object) {
      if (verdict[object] == LEAKED) verdict[object] = by, todo.push_back(object);
    };
    for (int it : from) add(it);
    while (!todo.empty()) {
      int object = todo.back();
      todo.pop_back();
      each_owned(object, [&](int, int to) { add(to); });
    }
  }

  template <typename Visit>
  void each_owned(int object, Visit visit) const {
    std::for_each(owners_from.begin(object), owners_from.end(object),
                  [&](int owner) { visit(owner, graph.to[owner]); });
  }

  // Those whose last owner has left, one after another.
  void end_without_owners(const std::vector<int>& roots) {
    std::vector<int> owned(verdict.size()), ended;
    for (int owner = 0; owner < graph.owners; owner++) owned[graph.to[owner]]++;
    for (int it : roots) owned[it]++;
    for (int object = 1; object <= graph.count; object++)
      if (!owned[object]) ended.push_back(object);
    for (std::size_t at = 0; at < ended.size(); at++) {
      verdict[ended[at]] = ENDED;
      each_owned(ended[at], [&](int, int to) {
        if (!--owned[to]) ended.push_back(to);
      });
    }
  }

  bool is_inner(int owner) const { return verdict[graph.from[owner]] == LEAKED && verdict[graph.to[owner]] == LEAKED; }

  struct Entered {
    int object;
    const int* next;  // of its owners
  };

  // Tarjan's strongly connected parts of what leaks, without recursion.
  void find_parts() {
    part.assign(verdict.size(), -1);
    std::vector<int> order(verdict.size()), low(verdict.size()), path;
    std::vector<Entered> stack;
    int entered = 0;
    auto enter = [&](int object) {
      order[object] = low[object] = ++entered;
      path.push_back(object);
      stack.push_back({object, owners_from.begin(object)});
    };
    for (int first = 1; first <= graph.count; first++) {
      if (verdict[first] == LEAKED && !order[first]) enter(first);
      while (!stack.empty()) {
        int object = stack.back().object;
        if (stack.back().next != owners_from.end(object)) {
          int to = graph.to[*stack.back().next++];
          if (verdict[to] == LEAKED && !order[to]) enter(to);
          else if (verdict[to] == LEAKED && part[to] < 0) low[object] = std::min(low[object], order[to]);
          continue;
        }
        stack.pop_back();
        if (!stack.empty()) low[stack.back().object] = std::min(low[stack.back().object], low[object]);
        if (low[object] == order[object]) leave(path, object);
      }
    }
  }

  void leave(std::vector<int>& path, int object) {
    int member = 0;
    do {
      member = path.back();
      path.pop_back();
      part[member] = parts;
    } while (member != object);
    parts++;
  }

  // The parts that owners tie together, in the order of their least objects.
  void find_knots() {
    Rows objects(parts, graph.count + 1, [&](int object) { return part[object]; });
    auto tied_part = [&](int owner) {
      return is_inner(owner) && part[graph.from[owner]] == part[graph.to[owner]] ? part[graph.to[owner]] : -1;
    };
    Rows tied(parts, graph.owners, tied_part);
    std::vector<unsigned char> is_owned_part(static_cast<std::size_t>(parts));
    for (int owner = 0; owner < graph.owners; owner++)
      if (is_inner(owner) && tied_part(owner) < 0) is_owned_part[part[graph.to[owner]]] = 1;
    std::vector<int> found;
    for (int at = 0; at < parts; at++)
      if (tied.begin(at) != tied.end(at)) found.push_back(at);
    std::sort(found.begin(), found.end(), [&](int a, int b) { return *objects.begin(a) < *objects.begin(b); });
    for (int at : found) {
      members.insert(members.end(), objects.begin(at), objects.end(at));
      ties.insert(ties.end(), tied.begin(at), tied.end(at));
      first_member.push_back(static_cast<int>(members.size()));
      first_tie.push_back(static_cast<int>(ties.size()));
      is_owned.push_back(is_owned_part[at]);
    }
  }

  void find_shapes() {
    std::map<std::vector<int>, int> known;
    std::vector<int> place(verdict.size()), key;
    for (std::size_t knot = 0; knot < is_owned.size(); knot++) {
      int count = first_member[knot + 1] - first_member[knot];
      for (int at = 0; at < count; at++) place[members[first_member[knot] + at]] = at;
      key.assign({count});
      for (int at = first_tie[knot]; at < first_tie[knot + 1]; at++)
        key.insert(key.end(), {place[graph.from[ties[at]]], place[graph.to[ties[at]]], graph.label[ties[at]]});
      shape.push_back(known.emplace(key, known.size()).first->second);
    }
  }

  std::vector<int> part;  // by object, of what leaks
  int parts = 0;
};

}  // namespace

#define PUBLIC extern "C" __attribute__((visibility("default")))

// The arrays have to last as long as what is returned, which is never given back.
PUBLIC void* search_owners(int count, int owners, const int* from, const int* to, const int* label, int roots,
                           const int* root, int lost_owners, const int* lost) {
  return new Search({count, owners, from, to, label}, {root, root + roots}, {lost, lost + lost_owners});
}

PUBLIC const unsigned char* verdicts(void* found) { return static_cast<Search*>(found)->verdict.data(); }

PUBLIC int count_of_knots(void* found) { return static_cast<int>(static_cast<Search*>(found)->shape.size()); }
PUBLIC const int* first_members(void* found) { return static_cast<Search*>(found)->first_member.data(); }
PUBLIC const int* members(void* found) { return static_cast<Search*>(found)->members.data(); }
PUBLIC const int* first_ties(void* found) { return static_cast<Search*>(found)->first_tie.data(); }
PUBLIC const int* ties(void* found) { return static_cast<Search*>(found)->ties.data(); }
PUBLIC const int* shapes(void* found) { return static_cast<Search*>(found)->shape.data(); }
PUBLIC const unsigned char* are_owned(void* found) { return static_cast<Search*>(found)->is_owned.data(); }

// Returns how many groups there are.
PUBLIC int group_knots(void* found, const int* kind, const unsigned char* is_told) {
  auto search = static_cast<Search*>(found);
  search->group(kind, is_told);
  return static_cast<int>(search->first_of_group.size());
}
PUBLIC const int* firsts_of_groups(void* found) { return static_cast<Search*>(found)->first_of_group.data(); }
PUBLIC const int* counts_of_groups(void* found) { return static_cast<Search*>(found)->count_of_group.data(); }
