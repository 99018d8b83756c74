// A connection owns its io_context, and an operation that waits owns the connection: a reading, or with an argument a timer.
#include <boost/asio.hpp>
#include <cstdio>
#include <memory>

using boost::asio::ip::tcp;
using boost::system::error_code;

struct Connection : std::enable_shared_from_this<Connection> {
  std::shared_ptr<boost::asio::io_context> context;
  tcp::socket socket;
  boost::asio::steady_timer timer;
  char data[100];

  explicit Connection(std::shared_ptr<boost::asio::io_context> given)
      : context(given), socket(*given), timer(*given) {}

  void read() {
    auto self = shared_from_this();
    socket.async_read_some(boost::asio::buffer(data), [self](error_code, std::size_t) { self->read(); });
  }
  void wait() {
    timer.expires_after(std::chrono::hours(1));
    timer.async_wait([self = shared_from_this()](error_code) { self->wait(); });
  }
};

int main(int count, char**) {
  auto context = std::make_shared<boost::asio::io_context>();
  tcp::acceptor acceptor(*context, tcp::endpoint(tcp::v4(), 0));
  auto connection = std::make_shared<Connection>(context);
  tcp::socket client(*context);
  client.connect(acceptor.local_endpoint());
  acceptor.accept(connection->socket);
  if (count > 1) connection->wait();
  else connection->read();
  context->run_for(std::chrono::milliseconds(20));
}
