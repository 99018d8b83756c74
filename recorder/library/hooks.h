// Hooks of the recorder, for an edited copy of the compiler's own bits/shared_ptr_base.h, which includes this.
#ifndef SPTR_RECORDER_HOOKS_H
#define SPTR_RECORDER_HOOKS_H 1

extern "C" {
void sptr_recorder_born(void* block) noexcept;
void sptr_recorder_object(void* block, const volatile void* object, unsigned long size,
                          const char* type) noexcept;
void sptr_recorder_died(void* block) noexcept;
// Where `block` is null the handle holds nothing any more.
void sptr_recorder_set(const volatile void* handle, void* block, int is_weak) noexcept;
}

namespace sptr_recorder {

template <typename Object>
inline void object_of_pointer(void* block, Object* object) noexcept {
  sptr_recorder_object(block, (const volatile void*)object, 0, __PRETTY_FUNCTION__);
}
template <typename Pointer>
inline void object_of_pointer(void*, const Pointer&) noexcept {}  // null, or a pointer of a class

template <typename Object>
inline void object_in_place(void* block, const volatile void* object, unsigned long size) noexcept {
  sptr_recorder_object(block, object, size, __PRETTY_FUNCTION__);
}

// A handle's pointer to its control block, of the same size and layout, which tells each change.
template <typename Block, int is_weak>
class cell {
  Block* pointer;

public:
  constexpr cell() noexcept : pointer(nullptr) {}
  constexpr cell(int) noexcept : pointer(nullptr) {}
  constexpr cell(decltype(nullptr)) noexcept : pointer(nullptr) {}
  cell(Block* to) noexcept : pointer(to) {
    if (to) sptr_recorder_set(this, to, is_weak);
  }
  cell(const cell& other) noexcept : pointer(other.pointer) {
    if (pointer) sptr_recorder_set(this, pointer, is_weak);
  }
  ~cell() {
    if (pointer) sptr_recorder_set(this, nullptr, is_weak);
  }
  cell& operator=(Block* to) noexcept {
    if (pointer || to) sptr_recorder_set(this, to, is_weak);
    pointer = to;
    return *this;
  }
  cell& operator=(const cell& other) noexcept { return *this = other.pointer; }
  operator Block*() const noexcept { return pointer; }
  Block* operator->() const noexcept { return pointer; }
};

}  // namespace sptr_recorder
#endif
