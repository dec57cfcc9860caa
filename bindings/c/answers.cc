// The answers to the lines of a string, in C++. Ends with status 1 where one of them is not as it should be. A view without
// bytes may have no address, so what is passed may be NULL.
#include <instants.h>

#include <algorithm>
#include <stdexcept>
#include <string>
#include <string_view>

static std::string sentence(std::string_view words)
{
    std::string said(200, '\0');
    size_t len;
    instants_sentence(words.data(), words.size(), said.data(), said.size(), &len);
    said.resize(std::min(len, said.size()));
    return said;
}

// Words with a line feed between them, as `+00:00\n-\n100\nrfc3339`.
static std::string answers(std::string_view words, std::string_view input)
{
    auto line_feeds = std::count(input.begin(), input.end(), '\n');
    std::string output(INSTANTS_ROOM(line_feeds), '\0');
    size_t written;
    auto status = instants_answer_lines(words.data(), words.size(), input.data(), input.size(), output.data(), output.size(),
                                        &written);
    if (status != INSTANTS_OK)
        throw std::runtime_error(sentence(words));
    output.resize(written);
    return output;
}

// The first moment of an input, in seconds since 1970.
static int64_t first_second(std::string_view words, std::string_view input)
{
    instants_handle handle = {};
    instants_moment moment = {};
    size_t written;
    if (instants_open(words.data(), words.size(), &handle) != INSTANTS_OK)
        throw std::runtime_error(sentence(words));
    instants_answer_moments(handle.at, input.data(), input.size(), &moment, 1, &written);
    instants_close(handle.at);
    if (written == 0 || moment.fault != 0)
        throw std::runtime_error("no moment");
    return moment.seconds;
}

int main()
{
    const char *words = "+00:00\n-\n100\nrfc3339";
    bool is_well = answers(words, "2021-01-02T04:04:05+01:00\n") == "2021-01-02T03:04:05.000000000Z\n";
    is_well = is_well && answers(words, {}).empty();
    is_well = is_well && first_second(words, "1970-01-01T01:00:07+01:00") == 7;
    try {
        answers({}, "2021-01-02T04:04:05+01:00\n");
        return 1;
    } catch (const std::runtime_error &fault) {
        return is_well && fault.what() == std::string("instants: usage: instants TARGET ASSUMED LIMIT SOURCE...") ? 0 : 1;
    }
}
