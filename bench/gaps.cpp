// What stands between two locked instructions on one word: a loop as LLVM makes it of a share and a release, with so many
// instructions that do nothing between the two, or so many stores, or as many stores before the first.
#include <algorithm>
#include <array>
#include <chrono>
#include <cstdint>
#include <cstdio>

namespace {

struct alignas(64) Desk {
    std::uint32_t held = 3;
    std::uint32_t endings = 0;
    std::uint32_t allowance = 64;
    std::array<char, 16> slot{};
};

struct Gap {
    int idle = 0;
    int stores = 0;
    int stores_before = 0;
};

struct alignas(256) Word {
    std::uint64_t owners = 1;
};

// The allowance is looked at, and the handle counted; an owner more, and one less; the handle is counted out.
template <Gap gap>
void share_and_release(Desk& desk, Word* const& words, long turns) {
    asm volatile(R"(
    1:  movl 0(%[desk]), %%eax
        cmpl $1, 4(%[desk])
        movl %%eax, %%ecx
        sbbl $-1, %%ecx
        cmpl 8(%[desk]), %%ecx
        je 2f
        incl %%eax
        movl %%eax, 0(%[desk])
        movq (%[words]), %%rcx
        .set at, 12
        .rept %c[before]
        movb $1, at(%[desk])
        .set at, at + 1
        .endr
        lock incq (%%rcx)
        .rept %c[idle]
        nop
        .endr
        .set at, 12
        .rept %c[stores]
        movb $1, at(%[desk])
        .set at, at + 1
        .endr
        movq (%[words]), %%rcx
        lock decq (%%rcx)
        decl 0(%[desk])
        decq %[turns]
        jnz 1b
    2:)"
                 : [turns] "+r"(turns)
                 : [desk] "r"(&desk), [words] "r"(&words), [idle] "i"(gap.idle), [stores] "i"(gap.stores),
                   [before] "i"(gap.stores_before)
                 : "rax", "rcx", "cc", "memory");
}

template <Gap gap>
void tell() {
    using Clock = std::chrono::steady_clock;
    Desk desk;
    Word word;
    Word* const words = &word;
    std::array<double, 300> samples;
    for (double& sample : samples) {
        const auto begin = Clock::now();
        share_and_release<gap>(desk, words, 20'000);
        sample = std::chrono::duration<double, std::nano>(Clock::now() - begin).count() / 20'000;
    }
    std::sort(samples.begin(), samples.end());
    std::printf("%8d %8d %14d %8.1f\n", gap.idle, gap.stores, gap.stores_before, samples[samples.size() / 10]);
}

template <int... idle>
void tell_idle() {
    (tell<Gap{.idle = idle}>(), ...);
}

template <int... stores>
void tell_stores() {
    (tell<Gap{.stores = stores}>(), ...);
    (tell<Gap{.stores_before = stores}>(), ...);
}

}  // namespace

int main() {
    std::printf("%8s %8s %14s %8s\n", "idle", "stores", "stores before", "ns");
    tell_idle<0, 4, 8, 9, 10, 11, 12, 16, 32, 48>();
    tell_stores<1, 2, 3, 4, 6, 8>();
}
