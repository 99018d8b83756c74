// Programs that bench/recorder.py runs natively and under ./record: so many objects that are left at the end, or a
// call that is timed.
#include <algorithm>
#include <cstdio>
#include <cstdlib>
#include <cstring>
#include <ctime>
#include <memory>
#include <string>
#include <thread>
#include <vector>

struct Node {
  long number = 0;
  std::shared_ptr<Node> next;
};
struct Part;
struct Hub {
  std::vector<std::shared_ptr<Part>> parts;
};
struct Part {
  std::shared_ptr<Hub> hub;
};

static void keep(long count) {
  static auto& all = *new std::vector<std::shared_ptr<Node>>;
  for (long i = 0; i < count; i++) all.push_back(std::make_shared<Node>());
}

static void leak_pairs(long count) {
  for (long i = 0; i < count; i += 2) {
    auto a = std::make_shared<Node>(), b = std::make_shared<Node>();
    a->next = b;
    b->next = a;
  }
}

static void leak_hub(long count) {
  auto hub = std::make_shared<Hub>();
  for (long i = 0; i < count; i++) {
    hub->parts.push_back(std::make_shared<Part>());
    hub->parts.back()->hub = hub;
  }
}

static void* volatile used;  // (so that no compiler leaves out what makes it)

static void make() { used = std::make_shared<Node>().get(); }

static volatile int depth;

__attribute__((noinline)) static void make_deeper(int calls) {
  if (calls)
    make_deeper(calls - 1);
  else
    make();
  depth = calls;
}

static void make_deep() { make_deeper(16); }

static void make_string() {
  std::string text(40, 'x');
  std::vector<int> numbers(5);
  used = text.data(), used = numbers.data();
}

// Nanoseconds of processor time of a call, the least of many rounds.
static double least(void (*call)()) {
  constexpr int ROUNDS = 40, CALLS = 20'000;
  double found = 1e9;
  for (int round = 0; round < ROUNDS; round++) {
    timespec begin, end;
    clock_gettime(CLOCK_THREAD_CPUTIME_ID, &begin);
    for (int i = 0; i < CALLS; i++) call();
    clock_gettime(CLOCK_THREAD_CPUTIME_ID, &end);
    found = std::min(found, ((end.tv_sec - begin.tv_sec) * 1e9 + (end.tv_nsec - begin.tv_nsec)) / CALLS);
  }
  return found;
}

// The same of each of four threads that call at once, the greatest of their least.
static double least_of_threads(void (*call)()) {
  double found[4];
  std::vector<std::thread> threads;
  for (auto& of_thread : found) threads.emplace_back([&of_thread, call] { of_thread = least(call); });
  for (auto& thread : threads) thread.join();
  return *std::max_element(std::begin(found), std::end(found));
}

int main(int count, char** words) {
  long number = count > 2 ? std::atol(words[2]) : 0;
  auto is = [&](const char* name) { return count > 1 && !std::strcmp(words[1], name); };
  if (is("kept")) keep(number);
  if (is("pairs")) leak_pairs(number);
  if (is("hub")) leak_hub(number);
  if (is("make")) std::printf("%.1f\n", least(make));
  if (is("deep")) std::printf("%.1f\n", least(make_deep));
  if (is("string")) std::printf("%.1f\n", least(make_string));
  if (is("threads")) std::printf("%.1f\n", least_of_threads(make));
  if (is("thread")) std::thread([] { std::printf("%.1f\n", least(make_string)); }).join();
}
