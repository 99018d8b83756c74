// A cache that isn't freed watches objects by weak pointers, which keep nothing.
#include <map>
#include <memory>

struct Image {
  std::shared_ptr<Image> thumbnail, full;
};
auto& cache = *new std::map<int, std::weak_ptr<Image>>;

int main() {
  auto image = std::make_shared<Image>();
  image->thumbnail = std::make_shared<Image>();
  image->thumbnail->full = image;
  cache[1] = image;
  cache[2] = image->thumbnail;
  cache[3] = std::make_shared<Image>();
}
