// A syntax tree of variants.
#include <memory>
#include <variant>

struct Call;
struct Name {
  std::shared_ptr<Call> scope;
};
struct Call {
  std::variant<int, double, std::shared_ptr<Name>> callee;
};

int main() {
  auto call = std::make_shared<Call>();
  auto name = std::make_shared<Name>();
  call->callee = name;
  name->scope = call;
}
