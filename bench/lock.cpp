// Turns of a std::mutex: of one thread alone, and of two and four threads at once. Writes what lock_bench writes.
#include <chrono>
#include <cstdint>
#include <cstdio>
#include <mutex>
#include <thread>
#include <vector>

static constexpr uint32_t TURNS = 4000000;

struct Total {
    std::mutex lock;
    uint64_t turns = 0;
};

static void turns(Total &total, uint32_t count) {
    for (uint32_t i = 0; i < count; i++) {
        std::lock_guard<std::mutex> held(total.lock);
        total.turns++;
    }
}

static void run(uint32_t threads) {
    Total total;
    auto start = std::chrono::steady_clock::now();
    std::vector<std::thread> all;
    for (uint32_t i = 0; i < threads; i++) all.emplace_back(turns, std::ref(total), TURNS / threads);
    for (auto &one : all) one.join();
    auto spent = std::chrono::steady_clock::now() - start;
    printf("%u %llu %lld\n", threads, (unsigned long long)total.turns,
           (long long)std::chrono::duration_cast<std::chrono::microseconds>(spent).count());
}

int main() {
    run(1);
    run(2);
    run(4);
}
