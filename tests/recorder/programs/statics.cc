// Statics that are destroyed keep old bytes; one that isn't keeps its objects.
#include <map>
#include <memory>
#include <string>

struct Page {
  std::shared_ptr<Page> next, previous;
};
std::shared_ptr<Page> first;
auto& never_freed = *new std::map<std::string, std::shared_ptr<Page>>;

int main() {
  static auto kept = new std::shared_ptr<Page>(std::make_shared<Page>());
  (*kept)->next = std::make_shared<Page>();
  never_freed["a"] = std::make_shared<Page>();
  first = std::make_shared<Page>();
  first->next = std::make_shared<Page>();
  first->next->previous = first;
}
