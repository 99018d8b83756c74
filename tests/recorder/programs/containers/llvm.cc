// Circles through containers of LLVM.
#include <llvm/ADT/DenseMap.h>
#include <llvm/ADT/SmallVector.h>
#include <llvm/ADT/StringMap.h>

#include <memory>

struct Block {
  llvm::SmallVector<std::shared_ptr<Block>, 2> next;
};
struct Value {
  llvm::DenseMap<int, std::shared_ptr<Value>> users;
};
struct Scope {
  llvm::StringMap<std::shared_ptr<Scope>> names;
};

int main() {
  auto small = std::make_shared<Block>();
  small->next.push_back(small);
  auto large = std::make_shared<Block>();
  for (int count = 0; count < 5; count++) large->next.push_back(large);
  auto value = std::make_shared<Value>();
  value->users[3] = value;
  auto scope = std::make_shared<Scope>();
  scope->names["itself"] = scope;
}
