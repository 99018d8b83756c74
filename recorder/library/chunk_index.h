// The live chunk that has an address: nearly each word of memory is looked up.
#pragma once
#include <vector>

#include "table.h"

namespace recorder {

class ChunkIndex {
public:
  ChunkIndex() = default;
  ChunkIndex(const ChunkIndex&) = delete;
  ~ChunkIndex() {
    pieces.each([](Word, Piece*& piece) { give_own_pages(piece, sizeof(Piece)); });
    pieces.clear();
  }

  // The next chunk in the order of addresses.
  void add(Word from, Word to) {
    chunks.push_back({from, to});
    for (Word part = from / PART; part <= (to - 1) / PART; part++) {
      Piece* piece = piece_of(part * PART);
      if (!piece && !(piece = added_piece(part * PART))) return;
      int& first = piece->first[part % Piece::PARTS];
      if (!first) first = static_cast<int>(chunks.size());
    }
  }

  // -1 where none has it.
  int chunk_of(Word address) const {
    const Piece* piece = piece_of(address);
    std::size_t at = piece ? static_cast<std::size_t>(piece->first[address / PART % Piece::PARTS]) : 0;
    if (!at) return -1;
    while (at < chunks.size() && chunks[at].from <= address) at++;  // (a part has few)
    const Bounds& last = chunks[at - 1];
    return last.from <= address && address < last.to ? static_cast<int>(at) - 1 : -1;
  }

private:
  struct Bounds {
    Word from, to;
  };
  static constexpr Word PART = 256;

  // Of each part of 4 MB of addresses the first chunk that has bytes there, counted from 1; 0 where none has.
  struct Piece {
    static constexpr Word BYTES = Word(1) << 22, PARTS = BYTES / PART;
    int first[PARTS];
  };

  static Word key_of(Word address) { return (address / Piece::BYTES + 1) * WORD; }
  Piece* piece_of(Word address) const {
    Word key = key_of(address);
    if (key != last_key) {
      Piece* const* found = pieces.find(key);
      last_key = key;
      last_piece = found ? *found : nullptr;
    }
    return last_piece;
  }
  Piece* added_piece(Word address) {
    last_piece = static_cast<Piece*>(own_pages(sizeof(Piece)));
    if (last_piece) pieces.put(key_of(address), last_piece);
    return last_piece;
  }

  std::vector<Bounds> chunks;
  Table<Piece*> pieces;
  mutable Word last_key = 0;  // what was asked for last
  mutable Piece* last_piece = nullptr;
};

}  // namespace recorder
