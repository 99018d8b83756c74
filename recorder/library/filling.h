// What fresh memory of malloc is filled with: nothing, or what the program asked for.
#pragma once
#include "base.h"

namespace recorder {

// By mallopt(M_PERTURB, ..) or MALLOC_PERTURB_, as the C library has it; 0 where nothing was asked.
OF_ALL_UNITS std::atomic<unsigned char> perturbation;

void ask_environment_for_perturbation();

}  // namespace recorder
