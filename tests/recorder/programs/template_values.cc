// Members of templates with values as arguments, which debug information spells otherwise than types' names do. Of the
// last one it isn't known; and no -g is advised, as it was given. Wants g++.
#include <array>
#include <functional>
#include <memory>

enum class Color { RED, GREEN };

template <auto VALUE>
struct Value {
  std::shared_ptr<Value> next;
};
template <typename Type>
struct Box {
  std::shared_ptr<Box> next;
};

int main() {
  auto number = std::make_shared<Value<3u>>();
  number->next = number;
  auto length = std::make_shared<Value<5ul>>();
  length->next = length;
  auto letter = std::make_shared<Value<'c'>>();
  letter->next = letter;
  auto color = std::make_shared<Value<Color::GREEN>>();
  color->next = color;
  auto null = std::make_shared<Value<nullptr>>();
  null->next = null;
  auto array = std::make_shared<Box<std::array<char, 4>>>();
  array->next = array;
  auto call = std::make_shared<Box<void(int)>>();
  call->next = call;
  auto last = std::make_shared<Box<std::function<void(int, long)>>>();
  last->next = last;
}
