// Observers behind a base with virtual functions, one of them with a second base before it.
#include <list>
#include <memory>

struct Observer {
  virtual ~Observer() = default;
  virtual void tell(int) = 0;
};
struct Named {
  virtual ~Named() = default;
  int length = 0;
};
struct Subject {
  std::list<std::shared_ptr<Observer>> observers;
  void set(int value) {
    for (auto& it : observers) it->tell(value);
  }
};
struct View : Observer {
  std::shared_ptr<Subject> subject;
  int last = 0;
  explicit View(std::shared_ptr<Subject> it) : subject(std::move(it)) {}
  void tell(int value) override { last = value; }
};
struct NamedView : Named, View {
  using View::View;
};

int main() {
  auto subject = std::make_shared<Subject>();
  subject->observers.push_back(std::make_shared<View>(subject));
  subject->observers.push_back(std::shared_ptr<Observer>(new NamedView(subject)));
  subject->set(3);
}
