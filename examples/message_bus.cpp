// A bus: topics know their subscribers by weak pointers, and who drops its subscriber is unsubscribed.
#include <atomic>
#include <cstdio>
#include <memory>
#include <mutex>
#include <thread>
#include <vector>

std::atomic<unsigned> told, received;

// The messages of a subscriber. Its end counts them.
struct Subscriber {
  std::mutex alone;
  std::vector<unsigned long> messages;

  ~Subscriber() { received += static_cast<unsigned>(messages.size()); }

  void take(unsigned long message) {
    std::lock_guard lock(alone);
    messages.push_back(message);
  }
};

class Topic {
  std::mutex alone;
  std::vector<std::weak_ptr<Subscriber>> subscribers;

 public:
  void subscribe(const std::shared_ptr<Subscriber>& mine) {
    std::lock_guard lock(alone);
    subscribers.push_back(mine);
  }

  // Each subscriber that is there gets the message, and the topic forgets the others.
  void publish(unsigned long message) {
    std::lock_guard lock(alone);
    std::erase_if(subscribers, [&](const std::weak_ptr<Subscriber>& known) {
      std::shared_ptr<Subscriber> subscriber = known.lock();
      if (subscriber) {
        subscriber->take(message);
        ++told;
      }
      return !subscriber;
    });
  }
};

Topic news, weather;

// Twenty subscribers, one after another, with five messages each while they are there.
void talk() {
  for (unsigned long round = 0; round < 20; ++round) {
    auto mine = std::make_shared<Subscriber>();
    news.subscribe(mine);
    if (round % 2 == 1) weather.subscribe(mine);
    for (unsigned long message = 0; message < 5; ++message)
      (message % 2 == 0 ? news : weather).publish(message);
  }
}

int main() {
  {
    std::jthread one(talk), two(talk), three(talk), four(talk);
  }
  std::printf("%s that was told was received\n", told == received ? "all" : "not all");
}
