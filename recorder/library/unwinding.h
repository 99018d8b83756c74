// How a frame of the stack leads to its caller's.
#pragma once
#include "base.h"

namespace recorder {

// A call that has not returned: where it goes on, and the registers there.
struct Frame {
  Word code, stack, base;
};

// The frame of the caller of the function that this stands in.
#define CALLER_FRAME                                                            \
  (::recorder::Frame{reinterpret_cast<::recorder::Word>(__builtin_return_address(0)), \
                     reinterpret_cast<::recorder::Word>(__builtin_frame_address(0)) + 2 * ::recorder::WORD, \
                     *static_cast<::recorder::Word*>(__builtin_frame_address(0))})

// Where the function's own caller left its stack and base: what call frame information says of one place.
struct Rule {
  enum Kind : unsigned char {
    END,      // nothing is known, or the stack begins here
    BY_STACK, // the caller's stack begins so many bytes above `stack`
    BY_BASE,  // .. above `base`
    ALIGNED   // .. where the word lies that `base` leads to by these bytes
  } kind = END;
  bool is_base_by_base = false;  // `base_at` counts from `base`, else from the caller's stack
  int caller_stack = 0;
  int base_at = KEPT;  // where the caller's base was saved

  static constexpr int KEPT = 1 << 30;  // it is the same

  bool operator!=(const Rule& other) const {
    return kind != other.kind || is_base_by_base != other.is_base_by_base || caller_stack != other.caller_stack ||
           base_at != other.base_at;
  }
};

// The rule of a place in code to which a call returns, and where its function begins, or 0.
Rule rule_of(Word code, Word& function);

// Goes on to the caller; false at the end of the stack.
ALWAYS_INLINE bool step(Frame& frame, const Rule& rule) {
  Word above = rule.kind == Rule::BY_STACK ? frame.stack : frame.base;
  Word stack = above + static_cast<Word>(static_cast<long>(rule.caller_stack));
  if (rule.kind == Rule::ALIGNED) stack = *reinterpret_cast<Word*>(stack);
  if (rule.kind == Rule::END || stack <= frame.stack || stack % WORD) return false;
  if (rule.base_at != Rule::KEPT) {
    Word from = rule.is_base_by_base ? frame.base : stack;
    frame.base = *reinterpret_cast<Word*>(from + static_cast<Word>(static_cast<long>(rule.base_at)));
  }
  frame.stack = stack;
  frame.code = reinterpret_cast<Word*>(stack)[-1];
  return frame.code != 0;
}

}  // namespace recorder
