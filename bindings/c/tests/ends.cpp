// The same as ends.c in C++, with handles that their owners free, and senders that throw.
//
//     ends [NAME]      all if no name is given
#include "check.h"
#include <array>
#include <cstring>
#include <functional>
#include <list>
#include <map>
#include <stdexcept>
#include <string>
#include <system_error>
#include <thread>
#include <utility>

class Handle {
public:
    Handle() = default;
    explicit Handle(cbs_handle &opened) : handle(std::exchange(opened, cbs_handle{})) {}
    Handle(Handle &&other) noexcept : handle(std::exchange(other.handle, cbs_handle{})) {}
    ~Handle() { cbs_free(&handle); }
    cbs_handle *get() { return &handle; }

private:
    cbs_handle handle{};
};

constexpr std::size_t CLIENTS = 4;

struct Opened {
    Handle house;
    std::list<Handle> clients;
    std::size_t servers;

    explicit Opened(std::size_t count, std::uint64_t ring = 4) : servers(count) {
        const std::array<cbs_server, CLIENTS> all{{{1, 4, CBS_SOFT}, {1, 4, CBS_SOFT}, {1, 4, CBS_THROTTLED}, {1, 4, CBS_SOFT}}};
        std::array<cbs_handle, CLIENTS> opened{};
        CHECK(cbs_open(all.data(), count, 4, ring, house.get(), opened.data(), count) == CBS_OK);
        for (std::size_t i = 0; i < count; i++) {
            clients.emplace_back(opened[i]);
        }
    }

    Handle take() {
        Handle client = std::move(clients.front());
        clients.pop_front();
        return client;
    }
};

// Sends so many jobs of so many units, and then throws, as it does if a send is refused: the text is the status.
void sends(Handle &client, std::uint32_t units, std::uint32_t jobs) {
    for (std::uint32_t i = 0; i < jobs; i++) {
        std::uint64_t seq;
        std::uint32_t status;
        while ((status = cbs_send(client.get(), i, units, &seq)) == CBS_SEND_RING_FULL) {
            std::this_thread::yield();
        }
        if (status != CBS_OK) {
            throw std::runtime_error(std::to_string(status));
        }
    }
    throw std::runtime_error("all is sent");
}

// A sender's thread. It owns its client, and ends with the text of what was thrown.
struct Sender {
    std::string thrown;
    std::thread thread;

    Sender(Handle client, std::uint32_t units, std::uint32_t jobs)
        : thread([this, units, jobs](Handle mine) {
              try {
                  Handle inner = std::move(mine);
                  sends(inner, units, jobs);
              } catch (const std::runtime_error &error) {
                  thrown = error.what();
              }
          }, std::move(client)) {}

    void ended(const std::string &wanted) {
        thread.join();
        CHECK(thrown == wanted);
    }
};

// Takes turns until all is over, and checks how many jobs were finished in all.
void serves(Opened &opened, std::uint64_t jobs) {
    std::uint64_t finished = 0;
    struct cbs_turn turn{};
    while (!turn.over) {
        CHECK(cbs_turn(opened.house.get(), &turn) == CBS_OK);
        CHECK(turn.ran.kind != CBS_RUN_CLOCK_END && !turn.out_of_memory);
        finished += turn.ran.kind == CBS_RUN_DONE;
        if (turn.ran.kind == CBS_RUN_IDLE && turn.took == 0 && turn.advanced == 0) {
            std::this_thread::yield();
        }
    }
    CHECK(finished == jobs);
}

void fails_at_its_first_job() {
    Opened opened(1);
    Sender sender(opened.take(), 0, 10);
    serves(opened, 0);
    sender.ended(std::to_string(CBS_TASK_EMPTY_JOB));
}

void throws() {
    Opened opened(1);
    Sender sender(opened.take(), 2, 3);
    serves(opened, 3);
    sender.ended("all is sent");
}

// The second client's owner throws before there is a thread.
void never_starts() {
    Opened opened(2);
    Sender sender(opened.take(), 1, 5);
    try {
        Handle client = opened.take();
        throw std::system_error(std::make_error_code(std::errc::resource_unavailable_try_again));
    } catch (const std::system_error &) {
    }
    serves(opened, 5);
    sender.ended("all is sent");
}

// Eight houses go one after another, while four senders of each are at work and would be for ever.
void houses_go() {
    std::list<Opened> houses;
    std::list<Sender> senders;
    for (int i = 0; i < 8; i++) {
        Opened &opened = houses.emplace_back(CLIENTS, 2);
        while (!opened.clients.empty()) {
            senders.emplace_back(opened.take(), 1, UINT32_MAX);
        }
    }
    for (std::size_t turns = 0; !houses.empty(); turns += 100) {
        for (std::size_t i = 0; i < turns; i++) {
            struct cbs_turn turn;
            CHECK(cbs_turn(houses.front().house.get(), &turn) == CBS_OK);
        }
        houses.pop_front();
    }
    for (Sender &sender : senders) {
        sender.ended(std::to_string(CBS_CALL_HOUSE_GONE));
    }
}

int main(int count, char **words) {
    const std::map<std::string, std::function<void()>> cases{{"fails_at_its_first_job", fails_at_its_first_job},
                                                             {"throws", throws},
                                                             {"never_starts", never_starts},
                                                             {"houses_go", houses_go}};
    int ran = 0;
    for (const auto &[name, run] : cases) {
        if (count < 2 || name == words[1]) {
            run();
            std::printf("%s: ended\n", name.c_str());
            ran++;
        }
    }
    CHECK(ran > 0);
    return 0;
}
