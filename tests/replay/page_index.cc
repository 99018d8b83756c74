// A program as others are: a cache of pages, readers that are told of them, a tree of folders, and jobs that
// wait. It draws what it does by a seed.
//
// usage: page_index TURNS SEED
#include <algorithm>
#include <cstdlib>
#include <functional>
#include <map>
#include <memory>
#include <optional>
#include <random>
#include <string>
#include <utility>
#include <vector>

namespace {

using std::shared_ptr;
using std::size_t;
using std::vector;
using std::weak_ptr;

std::mt19937 draws;

size_t drawn(size_t count) { return draws() % count; }

// A folder owns its first part and the next one of the folder above, which it knows by a weak pointer.
struct Folder {
  weak_ptr<Folder> above;
  shared_ptr<Folder> next, first;
};

struct Reader;

struct Page : std::enable_shared_from_this<Page> {
  explicit Page(shared_ptr<Folder> folder) : folder(std::move(folder)) {}

  shared_ptr<Folder> folder;
  vector<weak_ptr<Reader>> readers;
  std::string text = "page";

  void forget_readers();
};

// A reader tells its page when it ends.
struct Reader {
  explicit Reader(const shared_ptr<Page>& page) : page(page) {}
  virtual ~Reader() {
    if (shared_ptr<Page> read = page.lock()) read->forget_readers();
  }

  weak_ptr<Page> page;
};

// A reader that keeps its page.
struct Editor : Reader {
  explicit Editor(const shared_ptr<Page>& page) : Reader(page), edited(page) {}

  shared_ptr<Page> edited;
};

void Page::forget_readers() {
  std::erase_if(readers, [](const weak_ptr<Reader>& it) { return it.expired(); });
}

class Index {
public:
  void turn();

private:
  shared_ptr<Page> page();
  shared_ptr<Folder> folder();
  void add_folder();
  void cut_folder();
  void climb();
  void read();
  void tell_readers();
  void wait();
  void rank();
  void revive();
  size_t count() const;

  shared_ptr<Folder> root = std::make_shared<Folder>();
  std::map<size_t, weak_ptr<Page>> known;
  vector<shared_ptr<Page>> recent;
  vector<shared_ptr<Reader>> readers;
  vector<std::function<size_t()>> jobs;
  std::optional<weak_ptr<Folder>> marked;
};

// A page by its number, a new one where nobody has it any more. The last eight that were asked for are kept.
shared_ptr<Page> Index::page() {
  weak_ptr<Page>& found = known[drawn(16)];
  shared_ptr<Page> page = found.lock();
  if (!page) {
    page = drawn(2) ? std::make_shared<Page>(folder()) : shared_ptr<Page>(new Page(folder()));
    found = page;
  }
  std::erase(recent, page);
  recent.insert(recent.begin(), page);
  if (recent.size() > 8) recent.pop_back();
  return page;
}

// Some folder, by a walk down the tree.
shared_ptr<Folder> Index::folder() {
  shared_ptr<Folder> found = root;
  while (drawn(5)) {
    shared_ptr<Folder>& below = drawn(2) ? found->first : found->next;
    if (!below) break;
    found = shared_ptr<Folder>(below);
  }
  return found;
}

void Index::add_folder() {
  shared_ptr<Folder> above = folder();
  auto made = std::make_shared<Folder>();
  made->above = above;
  made->next = std::move(above->first);
  above->first = std::move(made);
}

// A folder's first part ends with all that it alone owns, or the parts after it do.
void Index::cut_folder() {
  shared_ptr<Folder> above = folder();
  if (!above->first) return;
  if (drawn(3))
    above->first = above->first->next;
  else
    above->first->next.reset();
}

// From a folder up to the root, or as far as the folders are still there.
void Index::climb() {
  shared_ptr<Folder> at = folder();
  marked = at;
  while (shared_ptr<Folder> above = at->above.lock()) at.swap(above);
  if (at != root && at.use_count() == 1) marked.reset();
}

void Index::read() {
  shared_ptr<Page> read = page();
  if (read->readers.size() >= 3) return;
  shared_ptr<Reader> made;
  if (drawn(2))
    made = std::make_shared<Editor>(read);
  else
    made = std::make_unique<Reader>(read);
  read->readers.push_back(made);
  readers.push_back(std::move(made));
  if (readers.size() <= 12) return;
  std::swap(readers[drawn(readers.size())], readers.back());
  readers.erase(readers.begin() + 4);
}

void Index::tell_readers() {
  shared_ptr<Page> told = page();
  for (const weak_ptr<Reader>& it : told->readers)
    if (auto editor = std::dynamic_pointer_cast<Editor>(it.lock()))
      if (editor->edited.use_count() > 4) editor->edited.reset();
  if (drawn(3) == 0 && !readers.empty()) readers.pop_back();
}

// A job has a page until it is done.
void Index::wait() {
  if (jobs.size() < 10) {
    shared_ptr<const std::string> text(page(), nullptr);
    jobs.push_back([asked = page(), text] { return size_t(asked.use_count() + text.use_count()); });
  } else {
    std::partition(jobs.begin(), jobs.end(), [](const auto& it) { return it() % 2; });
    jobs.resize(drawn(jobs.size()));
  }
}

void Index::rank() {
  auto has_fewer = [](const auto& a, const auto& b) { return a.use_count() < b.use_count(); };
  std::sort(recent.begin(), recent.end(), has_fewer);
  if (recent.size() > 5) recent.resize(4 + drawn(2));
}

// What was known and is gone is refused.
void Index::revive() {
  for (auto& [number, found] : known) try {
      shared_ptr<Page>(found)->shared_from_this();
    } catch (const std::bad_weak_ptr&) {
      weak_ptr<Page>().swap(found);
    }
  if (marked && marked->expired() && marked->use_count() == 0) marked.reset();
}

// How many owners the pages have that somebody has, and the folders that they are in.
size_t Index::count() const {
  long owners = 0;
  for (const auto& [number, found] : known) {
    if (found.expired()) continue;
    owners += found.use_count();
    if (shared_ptr<Page> page = found.lock()) owners += page->folder.use_count();
  }
  return size_t(owners);
}

void Index::turn() {
  switch (drawn(16)) {
    case 0: return cut_folder();
    case 1: return wait();
    case 2: return rank();
    case 3: return revive();
    case 4: case 5: return climb();
    case 6: case 7: return tell_readers();
    case 8: case 9: case 10: return read();
    case 11: jobs.push_back([found = count()] { return found; }); return;
    default: return add_folder();
  }
}

}  // namespace

int main(int, char** words) {
  draws.seed(static_cast<unsigned>(std::strtoul(words[2], nullptr, 10)));
  Index index;
  for (unsigned long turns = std::strtoul(words[1], nullptr, 10); turns; --turns) index.turn();
}
