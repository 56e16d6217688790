// A deque after Chase and Lev, "Dynamic circular work-stealing deque" (2005), with sequentially consistent steps: numbers are
// pushed, popped by the owner and stolen. Writes what deque_bench writes.
#include <atomic>
#include <chrono>
#include <cstdint>
#include <cstdio>
#include <thread>
#include <vector>

typedef unsigned __int128 Number;

static constexpr uint64_t COUNT = 1000000;

// A ring whose size is a power of two. Rings that were outgrown are kept until the end, since a thief may still read them.
struct Ring {
    explicit Ring(uint64_t size) : mask(size - 1), slots(size) {}
    Number get(uint64_t i) const { return slots[i & mask]; }
    void put(uint64_t i, Number x) { slots[i & mask] = x; }
    uint64_t mask;
    std::vector<Number> slots;
};

class Deque {
  public:
    Deque() { grow(new Ring(64)); }
    ~Deque() {
        for (Ring *one : rings) delete one;
    }

    void push(Number x) {
        uint64_t b = bottom.load(), t = top.load();
        Ring *now = ring.load();
        if (b - t > now->mask) {
            Ring *larger = new Ring(2 * (now->mask + 1));
            for (uint64_t i = t; i < b; i++) larger->put(i, now->get(i));
            grow(larger);
            now = larger;
        }
        now->put(b, x);
        bottom.store(b + 1);
    }

    bool pop(Number &x) {
        uint64_t b = bottom.load();
        if (b == 0) return false;
        b -= 1;
        bottom.store(b);
        uint64_t t = top.load();
        if (t > b) {
            bottom.store(t);
            return false;
        }
        x = ring.load()->get(b);
        if (t < b) return true;
        bool mine = top.compare_exchange_strong(t, t + 1);
        bottom.store(b + 1);
        return mine;
    }

    // 1: stolen, 0: empty, -1: another one was faster
    int steal(Number &x) {
        uint64_t t = top.load(), b = bottom.load();
        if (t >= b) return 0;
        Number found = ring.load()->get(t);
        if (!top.compare_exchange_strong(t, t + 1)) return -1;
        x = found;
        return 1;
    }

  private:
    void grow(Ring *next) {
        rings.push_back(next);
        ring.store(next);
    }
    std::atomic<uint64_t> top{0}, bottom{0};
    std::atomic<Ring *> ring{nullptr};
    std::vector<Ring *> rings;
};

typedef std::chrono::steady_clock Clock;

static long long since(Clock::time_point start) {
    return std::chrono::duration_cast<std::chrono::microseconds>(Clock::now() - start).count();
}

static void expose(Deque &deque) {
    for (uint64_t i = 0; i < COUNT; i++) deque.push(i);
}

int main() {
    Deque deque;
    uint64_t sum = 0;
    Number x;
    auto start = Clock::now();
    expose(deque);
    long long exposed = since(start);
    start = Clock::now();
    while (deque.pop(x)) sum += (uint64_t)x;
    long long taken = since(start);
    expose(deque);
    start = Clock::now();
    while (deque.steal(x) == 1) sum += (uint64_t)x;
    long long stolen = since(start);
    printf("%llu %llu %lld %lld %lld\n", (unsigned long long)COUNT, (unsigned long long)sum, exposed, taken, stolen);
}
