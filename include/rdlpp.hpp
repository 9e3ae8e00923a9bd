/*
 * rdlpp.hpp: the preprocessor for SystemRDL for C++17, over rdlpp.h. All of it is this header: link the library for C with it.
 *
 *     rdlpp::request request;
 *     request.path = "top.rdl";
 *     request.read = [](std::string_view path) -> std::optional<std::string> { .. };
 *     std::string text = rdlpp::preprocess(request);
 *
 * One source after another is read by one rdlpp::preprocessor, which asks for its tables once:
 *
 *     rdlpp::preprocessor preprocessor;
 *     for (const std::string &path : paths) {
 *         request.path = path;
 *         std::string text = preprocessor.preprocess(request);
 *         ..
 *     }
 *
 * A stream, and so a preprocessor, is used by one thread at a time. What goes wrong is thrown: rdlpp::error for a fault of the text,
 * std::invalid_argument for a request that has a limit out of its range or text that isn't UTF-8, and std::bad_alloc
 * where memory was refused.
 */
#ifndef RDLPP_HPP
#define RDLPP_HPP

#if __cplusplus < 201703L && !(defined _MSVC_LANG && _MSVC_LANG >= 201703L)
#error "rdlpp.hpp needs C++17"
#else

#include "rdlpp.h"

#include <algorithm>
#include <cstddef>
#include <cstdint>
#include <functional>
#include <memory>
#include <new>
#include <optional>
#include <stdexcept>
#include <string>
#include <string_view>
#include <utility>
#include <vector>

namespace rdlpp {

/* The kinds of faults, as RDLPP_FAULT_UNDEFINED_MACRO. */
using fault_kind = ::rdlpp_fault;

/* The text of a kind of fault, as "undefined macro". */
inline std::string text_of(fault_kind kind)
{
    char text[64];
    return {text, rdlpp_fault_text(static_cast<std::uint32_t>(kind), text, sizeof text)};
}

/* The version of the library: three numbers, with dots between them. */
inline std::string version()
{
    char text[64];
    return {text, std::min(rdlpp_version(text, sizeof text), sizeof text)};
}

/* A fault that ended an output. */
struct fault {
    fault_kind kind;
    std::string name;   /* the shown name of its source */
    std::uint64_t line; /* the shown line, from 1; 0 where no line is meant */
    std::string word;   /* the word that it is about; empty where it is about none */
    std::string notes;  /* lines that tell more of it, each with its LF; often empty */

    /* The line that the program reports, without its LF, as "top.rdl:3: error F7: undefined macro 'W'". */
    std::string message() const
    {
        const std::string about = word.empty() ? "" : " '" + word + "'";
        return name + ":" + std::to_string(line) + ": error F" + std::to_string(static_cast<int>(kind)) + ": "
            + text_of(kind) + about;
    }
};

/* A fault as an exception; what() is its message. */
class error : public std::runtime_error {
public:
    explicit error(rdlpp::fault stopped)
        : std::runtime_error(stopped.message()), stopped_(std::make_shared<rdlpp::fault>(std::move(stopped)))
    {
    }

    const rdlpp::fault &fault() const noexcept
    {
        return *stopped_;
    }

private:
    std::shared_ptr<const rdlpp::fault> stopped_;
};

/*
 * What a reader of sources throws of a source that can't be read: the output ends by RDLPP_FAULT_READ_FAILED, and the first of its
 * notes is "rdlpp: note: PATH: ", what() and an LF.
 */
struct unreadable : std::runtime_error {
    using std::runtime_error::runtime_error;
};

/* Gives the text of the source at a path; nothing where there is none. */
using reader = std::function<std::optional<std::string>(std::string_view path)>;

/* What is asked for: the fields of rdlpp_request, with the values of rdlpp_standard_request. */
struct request {
    rdlpp_limits limits = rdlpp_standard_limits();
    bool origins = false;
    bool pieces = false;
    std::vector<std::pair<std::string, std::string>> texts; /* each a path and its text */
    std::vector<std::string> folders;
    std::vector<std::pair<std::string, std::string>> definitions; /* each a name and its body */
    std::string path;
    reader read; /* asked for each source that isn't among `texts`, once; empty: there are no others */
    /*
     * Whether what `read` gives is held only while it is read, and until it gives the next one, as by rdlpp_give_once: it is
     * asked again where a source is included again, and another text than before ends the output by RDLPP_FAULT_READ_FAILED.
     */
    bool reads_again = false;
};

/* The place of what a read gave. */
struct place {
    std::string name;
    std::uint64_t line;
    bool goes_on; /* whether each LF byte of what was read begins the next line of its source */
};

namespace detail {

/* Throws what a status means by which nothing was opened or taken. */
inline void refuse(const rdlpp_outcome &outcome)
{
    switch (outcome.status) {
    case RDLPP_BAD_LIMIT:
        throw std::invalid_argument("limit " + std::to_string(outcome.number) + " is out of its range");
    case RDLPP_BAD_TEXT:
        throw std::invalid_argument("a path, a name or a body isn't UTF-8");
    case RDLPP_NO_MEMORY:
        throw std::bad_alloc();
    case RDLPP_CLOSED:
        throw std::logic_error("the stream isn't open");
    default:
        return;
    }
}

/* A request for C. It leads to the texts of the one that it is made of, and is valid as long as that one. */
struct lent_request {
    std::vector<rdlpp_text> texts;
    std::vector<rdlpp_folder> folders;
    std::vector<rdlpp_definition> definitions;
    rdlpp_request value = rdlpp_standard_request();

    explicit lent_request(const request &given)
    {
        for (const auto &[path, text] : given.texts) {
            texts.push_back({path.data(), path.size(), text.data(), text.size()});
        }
        for (const auto &folder : given.folders) {
            folders.push_back({folder.data(), folder.size()});
        }
        for (const auto &[name, text] : given.definitions) {
            definitions.push_back({name.data(), name.size(), text.data(), text.size()});
        }
        value.limits = given.limits;
        value.origins = given.origins;
        value.pieces = given.pieces;
        value.asks = static_cast<bool>(given.read);
        lend(value.texts, value.texts_length, texts);
        lend(value.folders, value.folders_length, folders);
        lend(value.definitions, value.definitions_length, definitions);
        value.path = given.path.data();
        value.path_length = given.path.size();
    }

    lent_request(const lent_request &) = delete;
    lent_request &operator=(const lent_request &) = delete;

private:
    template <typename T>
    static void lend(const T *&to, std::size_t &length, const std::vector<T> &from)
    {
        if (!from.empty()) {
            to = from.data();
            length = from.size();
        }
    }
};

struct closes {
    void operator()(rdlpp_handle *handle) const noexcept
    {
        rdlpp_close(handle);
        delete handle;
    }
};

} // namespace detail

/* An output that is read piece by piece. It closes itself, may be moved, and isn't copied. */
class stream {
public:
    /* Opens the main text of a request, all of which is copied. Throws rdlpp::error for a definition that is refused. */
    explicit stream(const request &given)
    {
        reopen(given);
    }

    /*
     * Opens the main text of another request, as a new stream does, but in the memory of this one where the limits are the same,
     * as rdlpp_reopen does. Nothing of the output before is seen, wherever it ended. A stream that was moved from is open then.
     *
     * Throws what the constructor throws. Where the library refused the request, the stream isn't open then, and each read throws
     * std::logic_error, until it is opened again; where the request's reader or its lists couldn't be copied, it is as before.
     */
    void reopen(const request &given)
    {
        const detail::lent_request lent(given);
        reader read = given.read;
        if (handle_ == nullptr) {
            handle_.reset(new rdlpp_handle(RDLPP_CLOSED_HANDLE));
        }
        read_.swap(read);
        reads_again_ = given.reads_again;
        wanted_.reset();
        failure_.clear();
        is_done_ = false;
        stopped_.reset();
        const rdlpp_outcome outcome =
            rdlpp_reopen(&lent.value, name_, sizeof name_, word_, sizeof word_, handle_.get());
        detail::refuse(outcome);
        if (outcome.status == RDLPP_STOPPED) {
            throw error(fault_of(outcome));
        }
    }

    /*
     * Reads the next bytes of the output to `to`, as many as `length` at most, and answers how many. 0 is answered at the
     * end alone, where is_done holds, or where `length` is 0; until then it reads on, however long that takes. Where `pieces` was
     * asked for, all of them stand at one place.
     *
     * What the reader of sources throws is thrown on, but for `unreadable`; the stream is as before then.
     */
    std::size_t read(char *to, std::size_t length)
    {
        for (;;) {
            give_wanted();
            const rdlpp_outcome outcome =
                rdlpp_read(handle(), to, length, name_, sizeof name_, word_, sizeof word_);
            take(outcome);
            if (outcome.length != 0 || is_done_ || length == 0) {
                return static_cast<std::size_t>(outcome.length);
            }
        }
    }

    /* Appends the next bytes of the output to `out`, 65,536 at most. Answers false at the end alone. */
    bool read(std::string &out)
    {
        const std::size_t size = out.size();
        out.resize(size + part);
        std::size_t length = 0;
        try {
            length = read(&out[size], part);
        } catch (...) {
            out.resize(size);
            throw;
        }
        out.resize(size + length);
        return length != 0;
    }

    /*
     * Appends the next bytes of the output to `out`, and what they give of the line map to `map`, as rdlpp_read_mapped does.
     * Answers false at the end alone. An output is read by this call alone, or by the others alone.
     */
    bool read_mapped(std::string &out, std::string &map)
    {
        std::vector<char> bytes(part), lines(part);
        while (!is_done_) {
            give_wanted();
            const rdlpp_mapped mapped = rdlpp_read_mapped(
                handle(), bytes.data(), part, lines.data(), part, name_, sizeof name_, word_, sizeof word_);
            out.append(bytes.data(), static_cast<std::size_t>(mapped.outcome.length));
            map.append(lines.data(), mapped.map_length);
            take(mapped.outcome);
            if (mapped.outcome.length != 0) {
                return true;
            }
        }
        return false;
    }

    /* Whether the output has ended. */
    bool is_done() const noexcept
    {
        return is_done_;
    }

    /* The fault that ended the output, if one did. */
    const std::optional<rdlpp::fault> &stopped() const noexcept
    {
        return stopped_;
    }

    /* The place of the first byte of what the last read gave, where `pieces` was asked for. */
    std::optional<place> position()
    {
        const rdlpp_outcome outcome = rdlpp_position(handle(), name_, sizeof name_);
        if (outcome.status != RDLPP_WHOLE) {
            return std::nullopt;
        }
        return place{{name_, outcome.name_length}, outcome.line, outcome.number == 1};
    }

    /* The live definitions as `define` lines, oldest first. */
    std::string definitions()
    {
        return whole(rdlpp_definitions);
    }

private:
    static constexpr std::size_t part = 65536;

    rdlpp_handle *handle()
    {
        if (handle_ == nullptr) {
            throw std::logic_error("the stream was moved from");
        }
        return handle_.get();
    }

    /* A text that a call tells whole. */
    std::string whole(std::size_t (*call)(rdlpp_handle *, char *, std::size_t))
    {
        char none = 0;
        std::string text(call(handle(), &none, 0), '\0');
        if (!text.empty()) {
            call(handle(), text.data(), text.size());
        }
        return text;
    }

    rdlpp::fault fault_of(const rdlpp_outcome &outcome)
    {
        const auto kind = static_cast<fault_kind>(outcome.number);
        std::string notes = failure_ + whole(rdlpp_notes);
        return {kind, {name_, outcome.name_length}, outcome.line, {word_, outcome.word_length}, std::move(notes)};
    }

    /* Takes what a read answered: keeps the path of a source that is asked for, or how the output ended. */
    void take(const rdlpp_outcome &outcome)
    {
        detail::refuse(outcome);
        if (outcome.status == RDLPP_WANTED) {
            wanted_ = std::string(name_, outcome.name_length);
        } else if (outcome.status == RDLPP_STOPPED) {
            is_done_ = true;
            stopped_ = fault_of(outcome);
        } else if (outcome.status == RDLPP_WHOLE) {
            is_done_ = true;
        }
    }

    /* Gives the source that is asked for, where one is. Where its reader throws it is asked for again. */
    void give_wanted()
    {
        /* what was moved from has neither a handle nor a reader, whatever it asked for */
        rdlpp_handle *const open = handle();
        if (!wanted_) {
            return;
        }
        const std::string &path = *wanted_;
        failure_.clear();
        rdlpp_outcome outcome{};
        try {
            const std::optional<std::string> text = read_(path);
            const auto give = reads_again_ ? rdlpp_give_once : rdlpp_give;
            outcome.status = text ? give(open, path.data(), path.size(), text->data(), text->size())
                                  : rdlpp_give_absent(open, path.data(), path.size());
        } catch (const unreadable &thrown) {
            failure_ = "rdlpp: note: " + path + ": " + thrown.what() + "\n";
            outcome.status = rdlpp_give_failed(open, path.data(), path.size());
        }
        detail::refuse(outcome);
        wanted_.reset();
    }

    std::unique_ptr<rdlpp_handle, detail::closes> handle_;
    reader read_;
    bool reads_again_ = false;
    std::optional<std::string> wanted_;
    std::string failure_; /* the note on the source that can't be read, if the output ended by it */
    bool is_done_ = false;
    std::optional<rdlpp::fault> stopped_;
    char name_[1024];
    char word_[128];
};

/* An output, and the fault that ended it, if one did. */
struct result {
    std::string text;
    std::optional<rdlpp::fault> stopped;
};

/*
 * Preprocesses one main text after another, by one stream that is opened again. It holds the memory of that stream, and what the
 * last request gave, until it goes. It may be moved, and isn't copied.
 */
class preprocessor {
public:
    /* Preprocesses the main text of a request, as rdlpp::run does. */
    result run(const request &given)
    {
        if (opened_) {
            opened_->reopen(given);
        } else {
            opened_.emplace(given);
        }
        result made;
        while (opened_->read(made.text)) {
        }
        made.stopped = opened_->stopped();
        return made;
    }

    /* Preprocesses the main text of a request, as rdlpp::preprocess does. */
    std::string preprocess(const request &given)
    {
        result made = run(given);
        if (made.stopped) {
            throw error(std::move(*made.stopped));
        }
        return std::move(made.text);
    }

private:
    std::optional<stream> opened_;
};

/* Preprocesses the main text of a request. */
inline result run(const request &given)
{
    return preprocessor().run(given);
}

/* Preprocesses the main text of a request. Throws rdlpp::error for a fault, which ended the output. */
inline std::string preprocess(const request &given)
{
    return preprocessor().preprocess(given);
}

} // namespace rdlpp

#endif
#endif
