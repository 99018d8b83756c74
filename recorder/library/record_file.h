// Writing a snapshot down.
#pragma once
#include "snapshot.h"

namespace recorder {

// The names of ./record's socket, and of the files that records become where that can't be reached, without the
// process's number. Returns whether they may be names.
bool know_way_out(const char* socket, const char* path);

// Connects to the socket: before main, so that neither limits nor rights that the program takes later prevent it,
// and in a process that is new.
void open_way_out();
void close_way_out();

// Writes all of the snapshot with this number, 0 for the last, and how long it took since it began; or that nothing can
// be told and why.
void write_record(int number, const Snapshot& all, const char* when, long began);
void write_refusal(int number, const char* why);

}  // namespace recorder
