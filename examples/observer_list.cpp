// An observer list: a subject knows its observers by weak pointers, tells those that are there, and drops the others.
#include <cstdio>
#include <memory>
#include <vector>

struct Observer {
  unsigned long number;
};

struct Subject {
  std::vector<std::weak_ptr<const Observer>> observers;

  void attach(const std::shared_ptr<const Observer>& observer) { observers.push_back(observer); }

  void notify() {
    std::erase_if(observers, [](const std::weak_ptr<const Observer>& observer) {
      std::shared_ptr<const Observer> told = observer.lock();
      if (told) std::printf("%lu is told\n", told->number);
      return !told;
    });
  }
};

int main() {
  Subject subject;
  auto anna = std::make_shared<const Observer>(1);
  auto bert = std::make_shared<const Observer>(2);
  subject.attach(anna);
  subject.attach(bert);
  subject.notify();
  anna.reset();
  subject.notify();
}
