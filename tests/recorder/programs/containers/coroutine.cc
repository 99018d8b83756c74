// A coroutine of asio that waits, and owns who has its io_context; or one whose io_context is a static.
#include <utility>  // (which Boost's header takes for granted)

#include <boost/asio.hpp>
#include <chrono>
#include <cstdlib>
#include <memory>

namespace asio = boost::asio;

struct Server {
  asio::io_context context;
  asio::steady_timer timer{context};
  int count = 0;
};

static asio::io_context kept;

static asio::awaitable<void> serve(std::shared_ptr<Server> server, asio::steady_timer& timer) {
  timer.expires_after(std::chrono::hours(1));
  co_await timer.async_wait(asio::use_awaitable);
  server->count++;
}

int main(int count, char**) {
  auto server = std::make_shared<Server>();
  if (count > 1) {
    asio::steady_timer timer(kept);
    asio::co_spawn(kept, serve(std::move(server), timer), asio::detached);
    kept.poll();
    std::_Exit(0);
  }
  asio::co_spawn(server->context, serve(server, server->timer), asio::detached);
  server->context.poll();
}
