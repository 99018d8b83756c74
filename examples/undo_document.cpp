// A document of objects of several classes, its history, undo, and a copy that another thread saves.
#include <future>
#include <iostream>
#include <memory>
#include <string>
#include <vector>

template <typename T>
void draw(const T& value, std::size_t position) {
  std::cout << std::string(position, ' ') << value << '\n';
}

// A value of any class that can be drawn.
class Object {
  struct Concept {
    virtual ~Concept() = default;
    virtual void draw_at(std::size_t position) const = 0;
  };

  template <typename T>
  struct Model final : Concept {
    explicit Model(T value) : value(std::move(value)) {}
    void draw_at(std::size_t position) const override { draw(value, position); }
    T value;
  };

  std::shared_ptr<const Concept> self;

 public:
  template <typename T>
  Object(T value) : self(std::make_shared<Model<T>>(std::move(value))) {}

  friend void draw(const Object& object, std::size_t position) { object.self->draw_at(position); }
};

using Document = std::vector<Object>;
using History = std::vector<Document>;

void draw(const Document& document, std::size_t position) {
  draw("<document>", position);
  for (const auto& element : document) draw(element, position + 2);
  draw("</document>", position);
}

Document& current(History& history) { return history.back(); }
void commit(History& history) { history.push_back(history.back()); }
void undo(History& history) { history.pop_back(); }

struct Mine {};
void draw(const Mine&, std::size_t position) { draw("my_class_t", position); }

int main() {
  History history(1);
  current(history).emplace_back(0);
  current(history).emplace_back(std::string("Hello!"));
  draw(current(history), 0);
  std::cout << "--------------------------\n";
  commit(history);
  current(history).emplace_back(current(history));
  current(history).emplace_back(Mine());
  current(history)[1] = std::string("World");
  auto document = current(history);
  auto saving = std::async(std::launch::async, [=] { draw(document, 0); });
  saving.get();
  std::cout << "--------------------------\n";
  undo(history);
  draw(current(history), 0);
}
