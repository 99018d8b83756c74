// Bytes in which an owner was made and destroyed by hand: old ones, beside a real circle.
#include <memory>
#include <new>

struct Connection {
  alignas(std::shared_ptr<Connection>) unsigned char room[64];
  std::shared_ptr<Connection> handler;
};

int main() {
  auto connection = std::make_shared<Connection>();
  using Owner = std::shared_ptr<Connection>;
  auto owner = new (connection->room + 16) Owner(connection);
  owner->~Owner();
  connection->handler = connection;
}
