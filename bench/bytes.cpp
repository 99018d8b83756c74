// Makes so many objects by std::make_shared and keeps them to its end.
#include <cstdint>
#include <cstdlib>
#include <memory>
#include <vector>

struct Object {
    std::uint64_t fields[4]{};
    std::shared_ptr<Object> first, next;
    std::weak_ptr<Object> up;
    std::uint64_t value{};
};

int main(int, char **words) {
    auto count = std::strtoul(words[1], nullptr, 10);
    std::vector<std::shared_ptr<Object>> owners;
    owners.reserve(count);
    for (auto n = count; n > 0; --n)
        owners.push_back(std::make_shared<Object>());
}
