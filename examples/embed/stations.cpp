// A host in C++17; stations.py is the same in Python:
//
//   stations IMAGE
//
// An instrument in a block, a machine that is copied while it waits for a key, a hundred machines, faults, words that are called, and limits.
#include <forth83.h>

#include <array>
#include <cstdlib>
#include <fstream>
#include <iostream>
#include <iterator>
#include <memory>
#include <optional>
#include <stdexcept>
#include <string>
#include <string_view>
#include <vector>

namespace {

constexpr std::uint16_t sensor = 150, first = 1000;
constexpr int station_count = 100;
constexpr std::uint64_t ticks = 1'000'000;

using bytes = std::vector<std::uint8_t>;

void must(std::uint32_t status, const std::string &what)
{
    if (status != FORTH83_DONE)
        throw std::runtime_error(what + ": " + forth83_status_text(status));
}

const std::uint8_t *bytes_of(std::string_view text)
{
    return reinterpret_cast<const std::uint8_t *>(text.data());
}

// What a run showed, and why it ended.
struct Ran {
    std::string shown;
    std::uint32_t stop;
};

// A machine. The record is copied as any value is.
class Forth {
public:
    explicit Forth(const bytes &image)
    {
        must(forth83_load(image.data(), image.size(), 65536, &record_), "the image");
    }

    Ran run(std::string_view typed, std::uint64_t limit = ticks)
    {
        std::string shown;
        std::array<std::uint8_t, 4096> room{};
        forth83_end end{};
        do {
            must(forth83_run(&record_, bytes_of(typed), typed.size(), room.data(), room.size(), limit, &end), "a run");
            shown.append(room.begin(), room.begin() + static_cast<std::ptrdiff_t>(end.shown));
            forth83_take_span(&record_, &end, take, &shown);
            typed.remove_prefix(end.read);
            limit = end.left;
            if (end.stop == FORTH83_STOP_BLOCK)
                answer_block();
        } while (end.stop == FORTH83_STOP_BLOCK || end.stop == FORTH83_STOP_ROOM || end.stop == FORTH83_STOP_SPAN || end.stop == FORTH83_STOP_LINE);
        return {shown, end.stop};
    }

    // The fault of a line, if it met one.
    std::optional<int> fault_of(const std::string &line)
    {
        const auto before = record_.faults.count;
        run(line + "\n");
        return record_.faults.count == before ? std::nullopt : std::optional<int>(record_.faults.last);
    }

    // Calls a word; its result, or why there is none.
    std::optional<int> call(std::string_view name, const std::vector<std::uint16_t> &arguments, std::uint32_t *stop = nullptr, std::uint64_t limit = ticks)
    {
        std::uint16_t word = 0, result = 0;
        must(forth83_find(&record_, bytes_of(name), name.size(), &word), std::string(name));
        must(forth83_call(&record_, word), "a call");
        for (const auto argument : arguments)
            must(forth83_push(&record_, argument), "an argument");
        const auto ran = run("", limit);
        const bool has_result = ran.stop == FORTH83_STOP_RETURNED && forth83_pop(&record_, &result) == FORTH83_DONE;
        must(forth83_resume(&record_), "the line");
        if (stop != nullptr)
            *stop = ran.stop;
        return has_result ? std::optional<int>(result) : std::nullopt;
    }

    int last_fault() const { return record_.faults.last; }

    // The instrument measures again at its next BLOCK.
    void measure_again() { forth83_drop_block(&record_, sensor); }

private:
    static void take(void *host, const std::uint8_t *piece, std::uint64_t size)
    {
        static_cast<std::string *>(host)->append(piece, piece + size);
    }

    // The instrument is a block that can be read; there is no other one.
    void answer_block()
    {
        if (record_.asks != FORTH83_ASKS_READ || record_.asked != sensor) {
            must(forth83_failed(&record_), "a block that does not exist");
            return;
        }
        std::array<std::uint8_t, FORTH83_PAGE> page{};
        page[0] = static_cast<std::uint8_t>(next_ % 256);
        page[1] = static_cast<std::uint8_t>(next_ / 256);
        next_++;
        must(forth83_read(&record_, page.data(), page.size()), "a measurement");
    }

    forth83 record_{};
    unsigned next_ = first;
};

// What is shown before the prompt, without what was typed.
std::string answer(const Ran &ran)
{
    return ran.shown.substr(0, ran.shown.find(" ok"));
}

void try_all(const bytes &image)
{
    auto forth = std::make_unique<Forth>(image);
    forth->run(": ADC 150 BLOCK @ ; : SQUARE DUP * ; : DIVIDE / ; : ASK 3 4 KEY . + . ; : LOOPS BEGIN AGAIN ;\n");
    for (int i = 0; i < 2; i++) {
        forth->measure_again();
        std::cout << "sensor " << forth->call("ADC", {}).value() << "\n";
    }
    forth->run("ASK\n");
    const auto waits = std::make_unique<Forth>(*forth);
    for (const std::string key : {"A", "B"}) {
        *forth = *waits;
        const auto shown = answer(forth->run(key));
        std::cout << "key " << shown.substr(0, shown.find_last_not_of(' ') + 1) << "\n";
    }
    std::vector<std::unique_ptr<Forth>> stations;
    for (int i = 0; i < station_count; i++) {
        stations.push_back(std::make_unique<Forth>(image));
        stations.back()->run(": MINE " + std::to_string(i) + " DUP * ;\n");
    }
    int sum = 0;
    for (const auto &station : stations)
        sum += station->call("MINE", {}).value();
    std::cout << "stations " << sum << "\ncall " << forth->call("SQUARE", {12}).value() << "\n";
    const bool has_result = forth->call("DIVIDE", {1, 0}).has_value();
    std::cout << "fault " << (has_result ? 0 : forth->last_fault()) << "\nfault " << forth->fault_of("99 BLOCK").value() << "\nfault "
              << forth->fault_of("NOWORD").value() << "\n";
    std::uint32_t stop = 0;
    forth->call("LOOPS", {}, &stop, 1000);
    std::cout << "limit " << (stop == FORTH83_STOP_LIMIT) << "\nthen " << answer(forth->run("5 6 + .\n")) << " ok\n";
}

} // namespace

int main(int count, char **words)
{
    if (count != 2) {
        std::cerr << "usage: stations IMAGE\n";
        return 2;
    }
    try {
        std::ifstream file(words[1], std::ios::binary);
        try_all(bytes(std::istreambuf_iterator<char>(file), {}));
    } catch (const std::exception &error) {
        std::cerr << "stations: " << error.what() << "\n";
        return 1;
    }
    return 0;
}
