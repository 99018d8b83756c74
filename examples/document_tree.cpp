// A document: elements own their children and know their parents, subtrees move, and the root's end ends what is left.
#include <cstdio>
#include <memory>
#include <string>
#include <vector>

// How many elements have ended.
int ended = 0;

struct Element {
  std::string name;
  std::vector<std::shared_ptr<Element>> children{};
  std::weak_ptr<Element> parent{};

  ~Element() { ++ended; }
};

std::shared_ptr<Element> make(const char* name) { return std::make_shared<Element>(name); }

// Whether the element stands in the part of the tree under the other one, or is it.
bool is_under(std::shared_ptr<Element> element, const std::shared_ptr<Element>& other) {
  while (element && element != other) element = element->parent.lock();
  return element != nullptr;
}

// The element, with all that stands under it, becomes the last child of the parent, unless that makes a circle.
void append(const std::shared_ptr<Element>& parent, const std::shared_ptr<Element>& element) {
  if (is_under(parent, element)) return;
  if (auto before = element->parent.lock()) std::erase(before->children, element);
  element->parent = parent;
  parent->children.push_back(element);
}

// The element and all that stands under it, each a line.
void print(const Element& element, int depth = 0) {
  std::printf("%*s%s\n", 2 * depth, "", element.name.c_str());
  for (const auto& child : element.children) print(*child, depth + 1);
}

int main() {
  auto html = make("html"), body = make("body"), left = make("left"), right = make("right");
  auto list = make("list"), item = make("item");
  append(html, body);
  append(body, left);
  append(body, right);
  append(left, list);
  append(list, item);
  print(*html);
  append(right, list);
  append(list, html);  // that would be a circle
  print(*html);
  body.reset(), left.reset(), right.reset(), item.reset();
  html.reset();
  std::printf("%d ended, the list has %s parent\n", ended, list->parent.lock() ? "a" : "no");
  print(*list);
  list.reset();
  std::printf("%d ended\n", ended);
}
