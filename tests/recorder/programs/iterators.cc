// Observers hold iterators into the list that owns them: raw pointers to its nodes, and no owners of themselves.
#include <list>
#include <map>
#include <memory>

struct Observer;
struct Subject {
  std::list<std::shared_ptr<Observer>> observers;
  std::map<int, std::shared_ptr<Observer>> by_number;
};
struct Observer {
  std::list<std::shared_ptr<Observer>>::iterator place;
  std::map<int, std::shared_ptr<Observer>>::iterator by_number;
};
auto& kept = *new std::shared_ptr<Subject>(std::make_shared<Subject>());

int main() {
  for (int i = 0; i < 9; i++) {
    auto observer = std::make_shared<Observer>();
    observer->place = kept->observers.insert(kept->observers.end(), observer);
    observer->by_number = kept->by_number.emplace(i, observer).first;
  }
}
