// The C++ wrapper: outputs, faults as values and as exceptions, sources by a callable, streams that are moved.
#include "rdlpp.hpp"

#include <cstdio>
#include <cstdlib>
#include <fstream>
#include <iterator>
#include <map>
#include <type_traits>

namespace {

bool good = true;

void check(bool holds, const char *what)
{
    if (!holds) {
        std::fprintf(stderr, "wrapper.cpp: not so: %s\n", what);
        good = false;
    }
}

rdlpp::request asked(const std::string &source)
{
    rdlpp::request request;
    request.texts = {{"m", source}, {"inc/i", "q"}};
    request.folders = {"inc"};
    request.definitions = {{"W", "8"}};
    request.path = "m";
    return request;
}

void gives_an_output()
{
    check(rdlpp::preprocess(asked("`W\n`include \"i\"\n")) == "8\nq\n\n", "an output");
    std::string source, wanted;
    for (int line = 0; line < 100000; ++line) {
        source += "reg[`W];\n";
        wanted += "reg[8];\n";
    }
    check(rdlpp::preprocess(asked(source)) == wanted, "a long output");
    check(rdlpp::preprocess(asked(std::string("a\0b\n", 4))) == std::string("a\0b\n", 4), "a zero byte");
    rdlpp::request request = asked("a\n");
    request.origins = true;
    check(rdlpp::preprocess(request) == "// origin: m:1\na\n", "origins");
    check(rdlpp::preprocess(rdlpp::request(asked(""))).empty(), "an empty output");
    check(rdlpp::version() == VERSION, "the version");
}

void tells_a_fault()
{
    const rdlpp::result made = rdlpp::run(asked("a\n`Q"));
    check(made.text == "a\n" && made.stopped.has_value(), "the output before a fault");
    check(made.stopped->kind == RDLPP_FAULT_UNDEFINED_MACRO && made.stopped->name == "m", "its kind and name");
    check(made.stopped->line == 2 && made.stopped->word == "Q", "its line and word");
    try {
        rdlpp::preprocess(asked("a\n`Q"));
        check(false, "a fault is thrown");
    } catch (const rdlpp::error &error) {
        check(error.fault().kind == RDLPP_FAULT_UNDEFINED_MACRO, "the fault that is thrown");
        check(std::string(error.what()) == "m:2: error F7: undefined macro 'Q'", "its message");
    }
    rdlpp::request request = asked("a");
    request.definitions = {{"1x", ""}};
    try {
        rdlpp::stream refused(request);
        check(false, "a refused definition is thrown");
    } catch (const rdlpp::error &error) {
        check(error.fault().kind == RDLPP_FAULT_NAME_EXPECTED && error.fault().name == "-D", "a refused definition");
    }
    check(!rdlpp::run(asked("`include \"no\"\n")).stopped->notes.empty(), "notes");
}

void refuses_what_is_asked()
{
    rdlpp::request request = asked("a");
    request.limits.depth = 0;
    try {
        rdlpp::preprocess(request);
        check(false, "a limit out of its range");
    } catch (const std::invalid_argument &) {
    }
    request = asked("a");
    request.path = "\xff";
    try {
        rdlpp::preprocess(request);
        check(false, "a path that isn't UTF-8");
    } catch (const std::invalid_argument &) {
    }
}

void asks_for_sources()
{
    std::map<std::string, std::string, std::less<>> files = {{"top", "a\n`include \"i\"\n"}, {"more/i", "b\n"}};
    std::vector<std::string> tried;
    rdlpp::request request;
    request.folders = {"more"};
    request.path = "top";
    request.read = [&](std::string_view path) -> std::optional<std::string> {
        tried.emplace_back(path);
        const auto found = files.find(path);
        return found == files.end() ? std::nullopt : std::make_optional(found->second);
    };
    check(rdlpp::preprocess(request) == "a\nb\n\n", "sources by a callable");
    check(tried == std::vector<std::string>{"top", "i", "more/i"}, "each is asked for once, in order");

    request.read = [](std::string_view path) -> std::optional<std::string> {
        if (path == "top") {
            return "a\n`include \"i\"\n";
        }
        throw rdlpp::unreadable("no");
    };
    const rdlpp::result made = rdlpp::run(request);
    check(made.text == "a\n" && made.stopped && made.stopped->kind == RDLPP_FAULT_READ_FAILED, "a source that can't be read");
    check(made.stopped->notes == "rdlpp: note: i: no\n", "its path and its reason");
}

// What a callable throws comes through, and the stream goes on where the next call doesn't throw.
void goes_on_after_an_exception()
{
    int calls = 0;
    rdlpp::request request;
    request.path = "top";
    request.read = [&](std::string_view path) -> std::optional<std::string> {
        calls += 1;
        if (path == "top") {
            return "a\n`include \"i\"\nc\n";
        }
        if (calls < 4) {
            throw std::runtime_error("not yet");
        }
        return "b\n";
    };
    rdlpp::stream stream(request);
    std::string out;
    int thrown = 0;
    while (!stream.is_done()) {
        try {
            stream.read(out);
        } catch (const std::runtime_error &) {
            thrown += 1;
        }
    }
    check(thrown == 2 && out == "a\nb\n\nc\n" && !stream.stopped(), "the output after two exceptions");
}

// A reader that is asked again where a source is included again: the same text, and then another one.
void asks_again()
{
    std::vector<std::string> paths;
    std::string included = "i\n";
    rdlpp::request request;
    request.texts = {{"m", "`include \"i\"\n`include \"j\"\n`include \"i\"\n"}};
    request.path = "m";
    request.reads_again = true;
    request.read = [&](std::string_view path) -> std::optional<std::string> {
        paths.emplace_back(path);
        return path == "i" ? included : "j\n";
    };
    const rdlpp::result whole = rdlpp::run(request);
    check(whole.text == "i\n\nj\n\ni\n\n" && !whole.stopped, "the same text");
    check(paths == std::vector<std::string>{"i", "j", "i"}, "each include asks");
    request.reads_again = false;
    paths.clear();
    check(rdlpp::run(request).text == whole.text && paths == std::vector<std::string>{"i", "j"}, "each path is asked for once");

    request.reads_again = true;
    request.read = [&](std::string_view path) -> std::optional<std::string> {
        return path == "i" ? std::exchange(included, "x\n") : "j\n";
    };
    const rdlpp::result made = rdlpp::run(request);
    check(made.text == "i\n\nj\n\n" && made.stopped && made.stopped->kind == RDLPP_FAULT_READ_FAILED, "another text");
    check(made.stopped && made.stopped->message() == "m:3: error F32: read failed", "the line of its fault");
    check(made.stopped && made.stopped->notes == "rdlpp: note: i: its text has changed since it was read first\n", "its note");
}

void moves_streams()
{
    static_assert(!std::is_copy_constructible_v<rdlpp::stream> && !std::is_copy_assignable_v<rdlpp::stream>);
    static_assert(std::is_move_constructible_v<rdlpp::stream> && std::is_move_assignable_v<rdlpp::stream>);
    rdlpp::stream first(asked("abcdef"));
    char part[2];
    check(first.read(part, 2) == 2 && std::string(part, 2) == "ab", "the first bytes");
    rdlpp::stream second(std::move(first));
    check(second.read(part, 2) == 2 && std::string(part, 2) == "cd", "the stream that was moved goes on");
    second = rdlpp::stream(asked("xy"));
    check(second.read(part, 2) == 2 && std::string(part, 2) == "xy", "another one in its place");
    try {
        first.read(part, 2);
        check(false, "a stream that was moved from");
    } catch (const std::logic_error &) {
    }
}

// A stream whose source is asked for, moved on: it goes on, and the one it was moved from has nothing to ask.
void moves_a_stream_that_asks()
{
    bool is_ready = false;
    rdlpp::request request;
    request.path = "top";
    request.read = [&](std::string_view) -> std::optional<std::string> {
        if (!is_ready) {
            throw std::runtime_error("not yet");
        }
        return "ab";
    };
    rdlpp::stream first(request);
    char part[2];
    try {
        first.read(part, 2); // keeps what is asked for
        check(false, "what the callable throws");
    } catch (const std::runtime_error &) {
    }
    rdlpp::stream second(std::move(first));
    std::string text, map;
    int refused = 0;
    for (const std::function<void()> &read : {std::function<void()>([&] { first.read(part, 2); }),
                                              std::function<void()>([&] { first.read(text); }),
                                              std::function<void()>([&] { first.read_mapped(text, map); })}) {
        try {
            read();
        } catch (const std::logic_error &) {
            refused += 1;
        } catch (const std::exception &) {
        }
    }
    check(refused == 3 && text.empty(), "a stream that was moved from while it asked");
    is_ready = true;
    check(second.read(part, 2) == 2 && std::string(part, 2) == "ab", "the one that was made of it");
}

// The reader of files that the documents show, over a folder: a fault, and no exception of the file's.
void reads_files()
{
    rdlpp::request request;
    request.texts = {{"m", "a\n`include \"/\"\n"}};
    request.path = "m";
    request.read = [](std::string_view path) -> std::optional<std::string> {
        std::ifstream file{std::string(path), std::ios::binary};
        if (!file) {
            return std::nullopt;
        }
        try {
            return std::string(std::istreambuf_iterator<char>(file), {});
        } catch (const std::ios_base::failure &error) { // a folder, say
            throw rdlpp::unreadable(error.what());
        }
    };
    const rdlpp::result made = rdlpp::run(request);
    check(made.text == "a\n" && made.stopped && made.stopped->kind == RDLPP_FAULT_READ_FAILED, "a folder");
    request.path = "/no such file";
    check(rdlpp::run(request).stopped->kind == RDLPP_FAULT_SOURCE_NOT_FOUND, "no file");
}

void tells_places()
{
    rdlpp::request request = asked("a\n`define A(x) <\\\nx>\n`A(1)\nb\n");
    request.pieces = true;
    rdlpp::stream stream(request);
    std::string out;
    std::vector<unsigned long long> lines;
    check(!stream.position(), "no place at first");
    while (stream.read(out)) {
        const std::optional<rdlpp::place> place = stream.position();
        check(place && place->name == "m", "a place");
        lines.push_back(place ? place->line : 0);
    }
    check(!lines.empty() && lines.front() == 1 && lines.back() == 4, "the lines of the pieces");
    check(stream.definitions() == "`define W 8\n`define A(x)<\\\nx>\n", "the definitions");

    request.pieces = false;
    rdlpp::stream mapped(request);
    std::string text, map;
    while (mapped.read_mapped(text, map)) {
    }
    check(text == out, "the output of mapped reads");
    check(map == "1\t1\t1\tm\n5\t4\t1\tm\n", "the line map");
}

// One stream for many outputs: after a whole one, a fault, a part, refusals and a source that is asked for, none is seen.
void opens_again()
{
    rdlpp::preprocessor preprocessor;
    for (int turn = 0; turn < 3; ++turn) {
        check(preprocessor.preprocess(asked("`define M 1\n`M`W\n")) == "\n18\n", "a whole output");
        const rdlpp::result made = preprocessor.run(asked("a\n`M"));
        check(made.text == "a\n" && made.stopped && made.stopped->word == "M", "a macro of the text before");
        rdlpp::request refused = asked("a");
        refused.definitions = {{"1x", ""}};
        try {
            preprocessor.run(refused);
            check(false, "a refused definition is thrown");
        } catch (const rdlpp::error &error) {
            check(error.fault().kind == RDLPP_FAULT_NAME_EXPECTED && error.fault().name == "-D", "a refused definition");
        }
        refused = asked("a");
        refused.limits.depth = 0;
        try {
            preprocessor.preprocess(refused);
            check(false, "a limit out of its range is thrown");
        } catch (const std::invalid_argument &) {
        }
    }
}

// A stream that is opened again while a source is asked for, after a refusal, and after it was moved from.
void reopens_streams()
{
    rdlpp::request asking;
    asking.path = "top";
    asking.read = [](std::string_view) -> std::optional<std::string> { throw std::runtime_error("never"); };
    rdlpp::stream stream(asking);
    std::string out;
    try {
        stream.read(out); // keeps what is asked for
        check(false, "what the callable throws");
    } catch (const std::runtime_error &) {
    }
    stream.reopen(asked("abc"));
    check(stream.read(out) && out == "abc" && !stream.read(out) && stream.is_done(), "nothing is asked for any more");
    rdlpp::request refused = asked("a");
    refused.path = "\xff";
    try {
        stream.reopen(refused);
        check(false, "a path that isn't UTF-8");
    } catch (const std::invalid_argument &) {
    }
    check(!stream.is_done() && !stream.stopped(), "nothing is left of the output before");
    try {
        stream.read(out);
        check(false, "a stream that isn't open");
    } catch (const std::logic_error &) {
    }
    stream.reopen(asked("`Q"));
    check(!stream.read(out) && stream.stopped() && out == "abc", "a fault after a refusal");
    rdlpp::stream moved(std::move(stream));
    stream.reopen(asked("xy"));
    check(stream.read(out) && out == "abcxy" && moved.stopped(), "a stream that was moved from is opened");
}

} // namespace

int main()
{
    gives_an_output();
    tells_a_fault();
    refuses_what_is_asked();
    asks_for_sources();
    goes_on_after_an_exception();
    asks_again();
    moves_streams();
    moves_a_stream_that_asks();
    reads_files();
    tells_places();
    opens_again();
    reopens_streams();
    return good ? EXIT_SUCCESS : EXIT_FAILURE;
}
