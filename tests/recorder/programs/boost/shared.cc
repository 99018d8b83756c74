// Boost's shared pointers, made in each way: by new, with a deleter and by make_shared.
#include <boost/enable_shared_from_this.hpp>
#include <boost/make_shared.hpp>
#include <boost/shared_ptr.hpp>
#include <boost/weak_ptr.hpp>

struct Child;

struct Parent {
  boost::shared_ptr<Child> child;
};

struct Child : boost::enable_shared_from_this<Child> {
  boost::shared_ptr<Parent> parent;
  boost::weak_ptr<Parent> seen;
};

struct Loop {
  virtual ~Loop() = default;
  boost::shared_ptr<Loop> itself;
};

struct Ring : Loop {
  long number = 0;
};

boost::shared_ptr<Parent> kept;

int main() {
  boost::shared_ptr<Parent> parent(new Parent);
  parent->child = boost::make_shared<Child>();
  parent->child->parent = parent;
  parent->child->seen = parent;
  boost::shared_ptr<Loop> loop(new Ring, [](Ring* ring) { delete ring; });
  loop->itself = loop;
}
