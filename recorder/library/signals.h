// Signals by which memory is read: one that asks for it, and those that end the process.
#pragma once

namespace recorder {

// From now on this signal asks for a snapshot, which a thread of the recorder's takes.
void answer_signal(int number);

// SIGTERM and SIGINT have the recorder's handler where they had none, from now on or no more.
void end_by_signals();
void leave_ending_signals();

}  // namespace recorder
