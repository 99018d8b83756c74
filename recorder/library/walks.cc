#include "walks.h"

namespace recorder {

BlockPlaces block_places;

void Walk::add_return(Word from) {
  if (has_room()) checks[returns++] = {from - first.stack, *reinterpret_cast<const Word*>(from)};
}

void Walk::add_distance(Word from) {
  Word word = *reinterpret_cast<const Word*>(from);
  if (has_room()) checks[MOST - ++distances] = {from - first.stack, word - first.stack};
}

void Walk::finish() {
  is_told &= returns > 0;
  if (returns % 2 && has_room()) checks[returns] = checks[returns - 1], returns++;
}

bool Walk::step(Frame& frame, const Rule& rule) {
  if (rule.kind == Rule::ALIGNED) is_told = false;
  if (rule.kind == Rule::BY_BASE && base_from) add_distance(base_from);
  if (rule.kind == Rule::BY_BASE && !base_from) {
    has_base = true;
    base = first.base - first.stack;
  }
  Word own_base = frame.base;
  if (!recorder::step(frame, rule)) return false;
  if (rule.base_at != Rule::KEPT)
    base_from = (rule.is_base_by_base ? own_base : frame.stack) + static_cast<Word>(static_cast<long>(rule.base_at));
  add_return(frame.stack - WORD);
  return true;
}

}  // namespace recorder
