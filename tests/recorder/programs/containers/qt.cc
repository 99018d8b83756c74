// Circles through containers of Qt.
#include <QHash>
#include <QList>
#include <QMap>
#include <QVector>
#include <memory>

struct Window {
  QVector<std::shared_ptr<Window>> children;
};
struct Model {
  QHash<int, std::shared_ptr<Model>> parts;
};
struct Item {
  QMap<int, std::shared_ptr<Item>> items;
};
struct Entry {
  QList<std::shared_ptr<Entry>> entries;
};

int main() {
  auto window = std::make_shared<Window>();
  window->children.push_back(window);
  auto model = std::make_shared<Model>();
  model->parts[1] = model;
  auto item = std::make_shared<Item>();
  item->items[1] = item;
  auto entry = std::make_shared<Entry>();
  entry->entries.push_back(entry);
}
