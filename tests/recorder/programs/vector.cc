// A graph in vectors, with an edge to itself; elements that were popped leave old bytes.
#include <memory>
#include <vector>

struct Vertex {
  std::vector<std::shared_ptr<Vertex>> out;
};

int main() {
  auto a = std::make_shared<Vertex>();
  auto b = std::make_shared<Vertex>();
  a->out = {b, a};
  for (int i = 0; i < 5; i++) b->out.push_back(a);
  for (int i = 0; i < 5; i++) b->out.pop_back();
}
