#include <cbs.hpp>
#include <chrono>
#include <cstdint>
#include <cstdio>
#include <exception>
#include <future>
#include <utility>

struct Wanted {
    const char *name;
    std::uint32_t units;
};

// The sender's thread. This function owns the client, so the end is sent however it is left.
static void sends(cbs::Client client) {
    for (const Wanted &wanted : {Wanted{"wash", 2}, Wanted{"dry", 1}}) {
        // The job: the serving thread calls it once for each of its units, and then frees it.
        cbs::Job job = [wanted, done = 0U](const cbs::Unit &) mutable {
            std::printf("%s: %u of %u\n", wanted.name, ++done, unsigned{wanted.units});
        };
        // This waits while the ring is full.
        if (client.blocking_send(std::move(job), wanted.units) != cbs::Send::Sent) {
            return; // the house is gone
        }
    }
}

int main() {
    try {
        std::future<void> sent; // joins the sender, after the house below is freed
        cbs::Plan plan;
        plan.admit(2, 5, cbs::Mode::Soft); // 2 ticks in every 5
        auto [house, clients] = plan.open(8, 8);
        sent = std::async(std::launch::async, sends, std::move(clients[0]));
        cbs::Realtime realtime(house, std::chrono::milliseconds(1)); // the length of a tick
        realtime.run(); // until the client is gone and its jobs are finished
        sent.get();     // throws what the sender threw
        const unsigned long long units = realtime.counts().units;
        std::printf("%llu units are done\n", units);
    } catch (const std::exception &error) {
        std::fprintf(stderr, "%s\n", error.what());
        return 1;
    }
    return 0;
}
