// Calls of the library from C++: an output of any length in a string that is made as long as it.
#include "rdlpp.h"

#include <cstdio>
#include <cstdlib>
#include <string>
#include <vector>

namespace {

struct Result {
    rdlpp_outcome outcome;
    std::string out;
    std::string name;
    std::string word;
};

rdlpp_outcome call(const std::string &source, std::string &out, std::string &name, std::string &word)
{
    const std::vector<rdlpp_text> texts = {{"m", 1, source.data(), source.size()}};
    const rdlpp_definition definitions[] = {{"W", 1, "8", 1}};
    rdlpp_request request = rdlpp_standard_request();
    request.texts = texts.data();
    request.texts_length = texts.size();
    request.definitions = definitions;
    request.definitions_length = 1;
    request.path = "m";
    request.path_length = 1;
    return rdlpp_preprocess(&request, &out[0], out.size(), &name[0], name.size(), &word[0], word.size());
}

// Asks for the length first, and then for the output.
Result preprocess(const std::string &source)
{
    Result result;
    result.name.resize(1024);
    result.word.resize(128);
    result.outcome = call(source, result.out, result.name, result.word);
    result.out.resize(result.outcome.length);
    result.outcome = call(source, result.out, result.name, result.word);
    result.name.resize(result.outcome.name_length);
    result.word.resize(result.outcome.word_length);
    return result;
}

bool check(bool holds, const char *what)
{
    if (!holds) {
        std::fprintf(stderr, "calls.cpp: not so: %s\n", what);
    }
    return holds;
}

} // namespace

int main()
{
    std::string source;
    std::string wanted;
    for (int line = 0; line < 100000; ++line) {
        source += "reg[`W];\n";
        wanted += "reg[8];\n";
    }
    const Result whole = preprocess(source);
    bool good = check(whole.outcome.status == RDLPP_WHOLE, "a long output is whole");
    good &= check(whole.out == wanted, "a long output");

    const Result stopped = preprocess(source + "`W`Q");
    good &= check(stopped.outcome.status == RDLPP_STOPPED, "a fault ends a long output");
    good &= check(stopped.out == wanted + "8", "what is before the fault");
    good &= check(stopped.outcome.number == 7 && stopped.outcome.line == 100001, "the fault and its line");
    good &= check(stopped.name == "m" && stopped.word == "Q", "its name and word");
    return good ? EXIT_SUCCESS : EXIT_FAILURE;
}
