// A deleter that owns what it deletes; one that keeps a resource; a unique_ptr that became shared.
#include <memory>

struct Pool {
  int count = 0;
};
struct Buffer {
  std::shared_ptr<Buffer> next;
};

int main() {
  auto pool = std::make_shared<Pool>();
  std::shared_ptr<Buffer> buffer(new Buffer, [pool](Buffer* it) { pool->count++, delete it; });
  buffer->next = buffer;
  std::shared_ptr<Buffer> other = std::make_unique<Buffer>();
  other->next = other;
}
