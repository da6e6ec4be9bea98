/*
 * libpef from C++11 on: what pef.h has, in types that free what they own. docs/EMBEDDING.md has an example.
 *
 * Structs of pef.h share names with calls, so C++ asks for `struct pef_section`. Here they are pef::section and the others.
 *
 * - A call that pef.h refuses throws pef::error. What isn't there is an empty result, or false.
 * - pef::bytes are bytes of somebody else, who keeps them. Where a function returns them, they are a part of what it was handed.
 * - A pef::context takes fragments by bytes that have to stay, with add(), or owns them, with keep(). It is freed when it and all of its
 *   connections are gone. A pef::connection closes when it goes. Both are moved and not copied.
 * - Several threads may read connections of one context at once, while none is in a call that changes it: the const members read.
 */
#ifndef PEF_HPP
#define PEF_HPP

#include "pef.h"

#include <cstring>
#include <exception>
#include <list>
#include <memory>
#include <string>
#include <utility>
#include <vector>

namespace pef {

using header = struct ::pef_header;
using section = struct ::pef_section;
using loader = struct ::pef_loader;
using library = struct ::pef_library;
using imported = struct ::pef_import;
using relocation = struct ::pef_relocation;
using fixup = struct ::pef_fixup;
using exported = struct ::pef_export;
using finding = struct ::pef_finding;
using place = struct ::pef_place;
using placed_section = struct ::pef_fragment_section;
using entries = struct ::pef_entries;
using target = struct ::pef_target;
using placed_export = struct ::pef_fragment_export;
using location = struct ::pef_location;
using missing_library = struct ::pef_missing;
using lacking_library = struct ::pef_lacking;
using stub_options = struct ::pef_stub_options;
using new_section = struct ::pef_new_section;
using options = struct ::pef_options;
using forks = struct ::pef_forks;
using resource = struct ::pef_resource;
using member = struct ::pef_member;

using buffer = std::vector<uint8_t>;

/* Bytes that somebody else owns. */
class bytes {
public:
    bytes() : at_(none()), size_(0) {}
    bytes(const uint8_t *at, size_t size) : at_(size == 0 ? none() : at), size_(size) {}
    bytes(struct ::pef_bytes it) : bytes(it.at, it.length) {}
    bytes(const buffer &it) : bytes(it.data(), it.size()) {}
    bytes(const std::string &it) : bytes(reinterpret_cast<const uint8_t *>(it.data()), it.size()) {}
    bytes(const char *text) : bytes(reinterpret_cast<const uint8_t *>(text), std::strlen(text)) {}

    const uint8_t *data() const { return at_; }
    size_t size() const { return size_; }
    bool empty() const { return size_ == 0; }
    const uint8_t *begin() const { return at_; }
    const uint8_t *end() const { return at_ + size_; }
    uint8_t operator[](size_t number) const { return at_[number]; }
    std::string text() const { return std::string(reinterpret_cast<const char *>(at_), size_); }
    buffer copy() const { return buffer(begin(), end()); }

private:
    static const uint8_t *none() { return reinterpret_cast<const uint8_t *>(""); }
    const uint8_t *at_;
    size_t size_;
};

inline bool operator==(bytes one, bytes other) { return one.size() == other.size() && std::memcmp(one.data(), other.data(), one.size()) == 0; }
inline bool operator!=(bytes one, bytes other) { return !(one == other); }

/* An answer that isn't PEF_OK, with what the library says of it. What it doesn't say is empty, or PEF_NOWHERE. */
class error : public std::exception {
public:
    explicit error(uint32_t number, const pef::place &where = nowhere(), const struct ::pef_names &names = PEF_NO_NAMES, size_t line = 0)
        : number(number), line(line), where(where), fragment(bytes(names.fragment).text()), library(bytes(names.library).text()), symbol(bytes(names.symbol).text())
    {
        struct ::pef_bytes text = PEF_NO_BYTES;
        name = pef_name(number, &text) == PEF_OK ? bytes(text).text() : "Unknown";
        help = pef_help(number, &text) == PEF_OK ? bytes(text).text() : "";
        said_ = std::to_string(number) + " " + name + said(" line ", line == 0 ? "" : std::to_string(line)) + said(" fragment ", fragment)
            + said(" library ", library) + said(" symbol ", symbol);
    }
    const char *what() const noexcept override { return said_.c_str(); }
    static pef::place nowhere() { return pef::place{PEF_NOWHERE, 0, 0, PEF_NO_OFFSET}; }

    uint32_t number;
    /* The line of a script, or 0. */
    size_t line;
    pef::place where;
    std::string name, help, fragment, library, symbol;

private:
    static std::string said(const char *word, const std::string &text) { return text.empty() ? "" : word + text; }
    std::string said_;
};

/* Throws the error of an answer; the second form with the place of the first error of a container. */
inline void check(uint32_t answer)
{
    if (answer != PEF_OK)
        throw error(answer);
}
inline void check(uint32_t answer, bytes container)
{
    pef::place where = error::nowhere();
    if (answer != PEF_OK)
        throw error(answer, pef_container_place(container.data(), container.size(), &where) == answer ? where : error::nowhere());
}

/* All rows of a table, however many there are: each call reads anew, so each asks for more. `call` reads them from a number on. */
template <class Row, class Call> std::vector<Row> all_rows(Call call)
{
    std::vector<Row> rows;
    size_t count, room = 256;
    do {
        size_t from = rows.size();
        rows.resize(from + room);
        check(call(from, rows.data() + from, room, &count));
        rows.resize(from + count);
    } while (count == room && (room *= 2) != 0);
    return rows;
}
template <class Row> std::vector<Row> all_rows(uint32_t (*call)(const uint8_t *, size_t, size_t, Row *, size_t, size_t *), bytes from_these)
{
    return all_rows<Row>([=](size_t from, Row *rows, size_t room, size_t *count) { return call(from_these.data(), from_these.size(), from, rows, room, count); });
}

/* A container, read from bytes that stay. Its constructor throws 1 to 20. */
class container {
public:
    explicit container(bytes contents) : contents_(contents)
    {
        check(pef_header(contents.data(), contents.size(), &header_), contents);
        check(pef_loader(contents.data(), contents.size(), &loader_), contents);
    }
    bytes contents() const { return contents_; }
    const pef::header &header() const { return header_; }
    const pef::loader &loader() const { return loader_; }
    pef::section section(size_t number, bytes &raw) const
    {
        pef::section row;
        struct ::pef_bytes found = PEF_NO_BYTES;
        check(pef_section(contents_.data(), contents_.size(), number, &row, &found));
        raw = found;
        return row;
    }
    /* The image of a section before it is relocated. Throws 21 to 25. */
    buffer image(size_t number) const
    {
        bytes raw;
        pef::section row = section(number, raw);
        if (row.kind != PEF_KIND_PACKED)
            return bytes(raw.data(), raw.size() < row.unpacked_size ? raw.size() : row.unpacked_size).copy();
        buffer out(row.unpacked_size);
        check(pef_expand(raw.data(), raw.size(), out.data(), out.size()));
        return out;
    }
    std::vector<library> libraries() const { return all_rows<library>(pef_libraries, contents_); }
    std::vector<imported> imports() const { return all_rows<imported>(pef_imports, contents_); }
    std::vector<relocation> relocations() const { return all_rows<relocation>(pef_relocations, contents_); }
    std::vector<exported> exports() const { return all_rows<exported>(pef_exports, contents_); }
    /* The additions of a program. Throws 31 to 36. */
    std::vector<fixup> fixups(size_t number) const
    {
        bytes it = contents_;
        return all_rows<fixup>([=](size_t from, fixup *rows, size_t room, size_t *count) { return pef_fixups(it.data(), it.size(), number, from, rows, room, count); });
    }
    bool find(bytes name, exported &found) const
    {
        size_t number;
        return pef_export_named(contents_.data(), contents_.size(), name.data(), name.size(), &number, &found) == PEF_OK;
    }
    bool find_import(bytes name, size_t &number, imported &found) const
    {
        return pef_import_named(contents_.data(), contents_.size(), name.data(), name.size(), &number, &found) == PEF_OK;
    }

private:
    bytes contents_;
    pef::header header_;
    pef::loader loader_;
};

/* The errors of a container, and the notes on it. */
inline std::vector<finding> findings(bytes container)
{
    std::vector<finding> found = all_rows<finding>(pef_findings, container), more = all_rows<finding>(pef_more_notes, container);
    found.insert(found.end(), more.begin(), more.end());
    return found;
}

namespace detail {

/* What a call writes of a script. Throws 41 to 49 with the line. */
template <class Out> Out of_script(decltype(pef_link) *call, bytes script, size_t room)
{
    Out out(room, 0);
    size_t written = 0, line = 0;
    uint32_t answer;
    while ((answer = call(script.data(), script.size(), reinterpret_cast<uint8_t *>(&out[0]), out.size(), &written, &line)) == PEF_ROOM_TOO_SMALL)
        out.resize(written);
    pef::place where = error::nowhere();
    size_t earlier;
    if (answer != PEF_OK)
        throw error(answer, line != 0 && pef_script_place(script.data(), script.size(), &where, &earlier) == answer ? where : error::nowhere(), PEF_NO_NAMES, line);
    out.resize(written);
    return out;
}

}

/* The container of a script. Throws 41 to 49 with the line. */
inline buffer link(bytes script) { return detail::of_script<buffer>(pef_link, script, 4096); }

/* The certificates of a script, as `pef distances` prints them. Throws as link() does. */
inline std::string distances(bytes script) { return detail::of_script<std::string>(pef_distances, script, 65536); }

namespace detail {

inline uint32_t next_of(struct ::pef_listing *it, uint8_t *out, size_t room, size_t *written) { return pef_list_next(it, out, room, written); }
inline uint32_t next_of(struct ::pef_report *it, uint8_t *out, size_t room, size_t *written) { return pef_report_next(it, out, room, written); }
inline void free_of(struct ::pef_listing *it) { pef_list_free(it); }
inline void free_of(struct ::pef_report *it) { pef_report_free(it); }

/* What is read part by part: next() gives as many characters as fit, and none at the end. */
template <class It> class parts {
public:
    parts(parts &&other) noexcept : it_(other.it_) { other.it_ = It(); }
    parts &operator=(parts &&other) noexcept
    {
        std::swap(it_, other.it_);
        return *this;
    }
    ~parts() { free_of(&it_); }
    size_t next(char *out, size_t room)
    {
        size_t written = 0;
        check(next_of(&it_, reinterpret_cast<uint8_t *>(out), room, &written));
        return written;
    }
    std::string rest()
    {
        std::string text, part(65536, ' ');
        while (size_t written = next(&part[0], part.size()))
            text.append(part, 0, written);
        return text;
    }

protected:
    parts() : it_() {}
    It it_;
};

} // namespace detail

/* The lines of `pef list`. The container has to stay. */
class listing : public detail::parts<struct ::pef_listing> {
public:
    explicit listing(bytes container) { check(pef_list_open(&it_, container.data(), container.size()), container); }
};

using found_container = struct ::pef_found_container;
using row_range = struct ::pef_row_range;

/* The containers of a file, for reports in parts. The last one is the end of the file. */
inline std::vector<found_container> found_containers(bytes file)
{
    found_container it;
    std::vector<found_container> found;
    uint32_t answer = pef_first_container(file.data(), file.size(), &it);
    for (found.push_back(it); answer == PEF_OK; found.push_back(it))
        answer = pef_next_container(file.data(), file.size(), &it);
    return found;
}

/* The report of `pef inspect --json` on a file, or a part of it. Nothing of the file is kept. */
class report : public detail::parts<struct ::pef_report> {
public:
    report(bytes path, bytes file) { check(pef_report_open(&it_, path.data(), path.size(), file.data(), file.size())); }

    /* What comes before the containers, the object of a container after a comma unless it is the first, and what comes after them: one
     * after the other they are the report. */
    static report head(bytes path, bytes file)
    {
        return report([=](struct ::pef_report *it) { return pef_report_open_head(it, path.data(), path.size(), file.data(), file.size()); });
    }
    static report of(bytes file, const found_container &found)
    {
        return report([=, &found](struct ::pef_report *it) { return pef_report_open_found(it, file.data(), file.size(), &found); });
    }
    static report end(bytes file, const found_container &last)
    {
        return report([=, &last](struct ::pef_report *it) { return pef_report_open_end(it, file.data(), file.size(), &last); });
    }
    /* The beginning of a container's object, and rows of it. */
    static report excerpt(bytes file, const found_container &found, uint32_t most)
    {
        return report([=, &found](struct ::pef_report *it) { return pef_report_open_excerpt(it, file.data(), file.size(), &found, most); });
    }
    static report rows(bytes file, const row_range &rows)
    {
        return report([=, &rows](struct ::pef_report *it) { return pef_report_open_rows(it, file.data(), file.size(), &rows); });
    }

private:
    template <class Open> explicit report(Open open) { check(open(&it_)); }
};

class connection;

/* The stub of a library that nobody has: its container, and how many symbols that exports. */
struct stub {
    buffer contents;
    size_t symbol_count;
};

/* A stub that a context owns: its library's name, and its container. Both are parts of the context until the fragment is removed. */
struct added_stub {
    bytes library;
    bytes contents;
};

/* Fragments by name, and the memory in which they are prepared. */
class context {
public:
    context() : context(pef::options(PEF_USUAL_OPTIONS)) {}
    explicit context(const pef::options &options) : state_(std::make_shared<state>()) { check(pef_open_with(&state_->it, &options)); }
    context(context &&) = default;
    context &operator=(context &&) = default;

    /* Adds a fragment. Both have to stay until it is removed, or the context and all of its connections are gone. Throws 203, 204 or
     * 99. */
    void add(bytes name, bytes contents) { check(pef_add(&state_->it, name.data(), name.size(), contents.data(), contents.size())); }
    /* The same, if no fragment has the name; throws 209 otherwise. */
    void add_new(bytes name, bytes contents) { check(pef_add_new(&state_->it, name.data(), name.size(), contents.data(), contents.size())); }
    /* The same of bytes that the context owns from now on. */
    void keep(std::string name, buffer contents)
    {
        state_->kept.emplace_back(std::move(name), std::move(contents));
        try {
            add(state_->kept.back().first, state_->kept.back().second);
        } catch (...) {
            state_->kept.pop_back();
            throw;
        }
    }
    /* Removes the first fragment of a name, and what the context owns of it. Throws 60, 207, 208 or 99. */
    void remove(bytes name)
    {
        const void *first = name_of_first(name);
        check(pef_remove(&state_->it, name.data(), name.size()));
        state_->kept.remove_if([first](const std::pair<std::string, buffer> &it) { return static_cast<const void *>(it.first.data()) == first; });
    }
    void reserve(uint32_t address, uint32_t size) { check(pef_reserve(&state_->it, address, size)); }
    /* Throws 201 if the addresses aren't exactly a range that was reserved. */
    void unreserve(uint32_t address, uint32_t size) { check(pef_unreserve(&state_->it, address, size)); }
    /* The libraries that are missing for a fragment and for all that it needs. Throws 60, 1 to 20 with the fragment's name and the place, or
     * 99. */
    std::vector<missing_library> missing(bytes name)
    {
        std::vector<missing_library> rows;
        for (size_t room = 64, count = room; count == room;) {
            struct ::pef_names names = PEF_NO_NAMES;
            pef::place where = error::nowhere();
            size_t from = rows.size();
            rows.resize(from + room);
            uint32_t answer = pef_missing_with_place(&state_->it, name.data(), name.size(), from, rows.data() + from, room, &count, &names, &where);
            if (answer != PEF_OK)
                throw error(answer, where, names);
            rows.resize(from + count);
        }
        return rows;
    }
    /* The libraries that the context lacks, whichever fragment is prepared. Throws 99. */
    std::vector<lacking_library> lacking() const
    {
        return all_rows<lacking_library>([this](size_t from, lacking_library *rows, size_t room, size_t *count) { return pef_lacking(&state_->it, from, rows, room, count); });
    }
    /* The stub of a library for the fragments of the context. It isn't added. Throws 206, 211 to 216 or 99. */
    pef::stub stub(bytes library, const stub_options &options = stub_options(PEF_NUMBERED_STUBS)) const
    {
        pef::stub made = {buffer(4096), 0};
        for (size_t written = 0;;) {
            uint32_t answer = pef_stub(&state_->it, library.data(), library.size(), &options, made.contents.data(), made.contents.size(), &written, &made.symbol_count);
            if (answer != PEF_OK && answer != PEF_ROOM_TOO_SMALL)
                throw stub_error(answer, library);
            made.contents.resize(written);
            if (answer == PEF_OK)
                return made;
        }
    }
    /* Adds a stub, which the context owns, of each library that it lacks, also of weak ones unless that is false. Numbers go on from one
     * stub to the next. Throws what lacking(), stub() and keep() throw, and then none is added. */
    std::vector<added_stub> add_stubs(const stub_options &options = stub_options(PEF_NUMBERED_STUBS), bool weak = true) { return add_stubs_of(lacking(), options, weak); }
    /* The same for the libraries that are missing for a fragment and for all that it needs. Throws what missing() throws, too. */
    std::vector<added_stub> add_stubs(bytes name, const stub_options &options = stub_options(PEF_NUMBERED_STUBS), bool weak = true)
    {
        std::vector<lacking_library> found;
        for (const missing_library &it : missing(name))
            if (!it.is_found)
                found.push_back({it.name, it.is_weak});
        return add_stubs_of(found, options, weak);
    }
    /* The sections that prepare() would place, in its order. Throws what it throws before it places anything. */
    std::vector<new_section> new_sections(bytes name)
    {
        std::vector<new_section> rows;
        for (size_t room = 64, count = room; count == room;) {
            struct ::pef_names names = PEF_NO_NAMES;
            pef::place where = error::nowhere();
            size_t from = rows.size();
            rows.resize(from + room);
            uint32_t answer = pef_new_sections_with_place(&state_->it, name.data(), name.size(), from, rows.data() + from, room, &count, &names, &where);
            if (answer != PEF_OK)
                throw error(answer, where, names);
            rows.resize(from + count);
        }
        return rows;
    }
    /* Throws what pef_prepare_with_place() reports, with its names and its place. */
    connection prepare(bytes name);
    /* The same with an address for each of new_sections(). Throws 210, too, if there are more or fewer. */
    connection prepare_at(bytes name, const std::vector<uint32_t> &addresses);
    /* The numbers that fragments have, in their order. Those of removed ones are left out. */
    std::vector<size_t> fragment_numbers() const
    {
        std::vector<size_t> found;
        for (size_t number = 0; pef_next_fragment(&state_->it, number, &number) == PEF_OK; number++)
            found.push_back(number);
        return found;
    }
    /* The name of a fragment, present or not. Throws 201 if no fragment has the number. */
    bytes fragment_name(size_t number) const
    {
        struct ::pef_bytes text = PEF_NO_BYTES;
        check(pef_fragment_name(&state_->it, number, &text));
        return text;
    }
    bool is_present(bytes name) const
    {
        bool answer = false;
        check(pef_is_present(&state_->it, name.data(), name.size(), &answer));
        return answer;
    }
    /* Where an address is, if it is in a section of a fragment that is present. */
    bool at(uint32_t address, location &found) const { return pef_at(&state_->it, address, &found) == PEF_OK; }

private:
    friend class connection;
    friend class fragment;
    std::vector<added_stub> add_stubs_of(const std::vector<lacking_library> &libraries, stub_options options, bool weak)
    {
        std::vector<std::pair<std::string, buffer>> made;
        uint64_t next = options.first;
        for (const lacking_library &it : libraries) {
            if (it.is_weak && !weak)
                continue;
            /* The stub before may have the last number. */
            bool is_past = options.values == PEF_STUB_NUMBERS && next > UINT32_MAX;
            options.first = is_past ? 0 : static_cast<uint32_t>(next);
            stub_options own = options;
            own.step = is_past ? 0 : options.step;
            pef::stub one = stub(it.name, own);
            if (is_past && one.symbol_count > 0)
                throw stub_error(PEF_PAST_LAST_NUMBER, it.name);
            next += static_cast<uint64_t>(options.step) * one.symbol_count;
            made.emplace_back(bytes(it.name).text(), std::move(one.contents));
        }
        std::vector<added_stub> added;
        try {
            added.reserve(made.size());
            for (std::pair<std::string, buffer> &it : made) {
                keep(std::move(it.first), std::move(it.second));
                added.push_back({state_->kept.back().first, state_->kept.back().second});
            }
        } catch (...) {
            while (!added.empty()) {
                remove(std::string(added.back().library.text()));
                added.pop_back();
            }
            throw;
        }
        return added;
    }
    static error stub_error(uint32_t number, bytes library)
    {
        struct ::pef_names names = PEF_NO_NAMES;
        names.library.at = library.data();
        names.library.length = library.size();
        return error(number, error::nowhere(), names);
    }
    /* Where the name of the first fragment of a name is. */
    const void *name_of_first(bytes name) const
    {
        for (size_t number : fragment_numbers()) {
            bytes found = fragment_name(number);
            if (found == name)
                return found.data();
        }
        return nullptr;
    }
    struct state {
        struct ::pef_context it = PEF_NO_CONTEXT;
        std::list<std::pair<std::string, buffer>> kept;
        state() = default;
        state(const state &) = delete;
        state &operator=(const state &) = delete;
        ~state() { pef_free(&it); }
    };
    std::shared_ptr<state> state_;
};

/* A fragment of a connection's closure. It is used while the connection is open. */
class fragment {
public:
    size_t number() const { return number_; }
    bytes name() const
    {
        struct ::pef_bytes text = PEF_NO_BYTES;
        check(pef_fragment_name(it_, number_, &text));
        return text;
    }
    /* How many sections it has in memory, and one of them. */
    size_t section_count() const
    {
        size_t count = 0;
        check(pef_fragment_sections(it_, number_, &count));
        return count;
    }
    placed_section section(size_t number) const
    {
        placed_section row;
        check(pef_fragment_section(it_, connection_, number_, number, &row));
        return row;
    }
    /* Copies the bytes of a section to the memory of a machine. Throws 200 if it is too small. */
    void copy(size_t number, uint8_t *out, size_t room) const
    {
        size_t written;
        check(pef_fragment_bytes(it_, number_, number, out, room, &written));
    }
    pef::entries entries() const
    {
        pef::entries row;
        check(pef_fragment_entries(it_, connection_, number_, &row));
        return row;
    }
    bool symbol(bytes name, uint32_t &address) const { return pef_fragment_symbol(it_, connection_, number_, name.data(), name.size(), &address) == PEF_OK; }
    bool import_target(size_t number, target &found) const { return pef_import_target(it_, connection_, number_, number, &found) == PEF_OK; }
    /* How many exports it has, and one of them with where it ends, by its number and by its name. */
    size_t export_count() const
    {
        size_t count = 0;
        check(pef_fragment_exports(it_, connection_, number_, &count));
        return count;
    }
    bool find(size_t number, placed_export &found) const { return pef_fragment_export(it_, connection_, number_, number, &found) == PEF_OK; }
    bool find(bytes name, placed_export &found) const { return pef_fragment_export_named(it_, connection_, number_, name.data(), name.size(), &found) == PEF_OK; }
    bool find_import(bytes name, size_t &number) const { return pef_fragment_import_named(it_, connection_, number_, name.data(), name.size(), &number) == PEF_OK; }
    bool export_address(size_t number, uint32_t &address) const { return pef_export_address(it_, connection_, number_, number, &address) == PEF_OK; }

private:
    friend class connection;
    fragment(const struct ::pef_context *it, uint32_t connection, size_t number) : it_(it), connection_(connection), number_(number) {}
    const struct ::pef_context *it_;
    uint32_t connection_;
    size_t number_;
};

/* An open connection. It closes when it goes, or by close(). */
class connection {
public:
    connection(connection &&) = default;
    connection &operator=(connection &&other) noexcept
    {
        std::swap(state_, other.state_);
        std::swap(number_, other.number_);
        return *this;
    }
    ~connection()
    {
        if (state_ != nullptr)
            pef_close(&state_->it, number_);
    }
    /* Closes it. Throws 68 if it is closed already. */
    void close()
    {
        std::shared_ptr<context::state> was = std::move(state_);
        state_ = nullptr;
        check(was == nullptr ? PEF_BAD_CONNECTION : pef_close(&was->it, number_));
    }
    uint32_t number() const { return number_; }
    /* The closure, in which the fragment that was prepared is the last; and in the order of initialization. */
    std::vector<fragment> fragments() const { return those(pef_fragments_const); }
    std::vector<fragment> init_order() const { return those(pef_init_order_const); }
    /* Those to be copied and initialized now, and those to be terminated before it closes. */
    std::vector<fragment> new_fragments() const { return those(pef_new_fragments_const); }
    std::vector<fragment> released() const { return those(pef_released_by_const); }

private:
    friend class context;
    connection(std::shared_ptr<context::state> state, uint32_t number) : state_(std::move(state)), number_(number) {}
    std::vector<fragment> those(uint32_t (*call)(const struct ::pef_context *, uint32_t, size_t *, size_t, size_t *)) const
    {
        size_t places[PEF_MAX_FRAGMENTS], count = 0;
        check(state_ == nullptr ? PEF_NOT_THERE : call(&state_->it, number_, places, PEF_MAX_FRAGMENTS, &count));
        std::vector<fragment> found;
        for (size_t i = 0; i < count; i++)
            found.push_back(fragment(&state_->it, number_, places[i]));
        return found;
    }
    std::shared_ptr<context::state> state_;
    uint32_t number_;
};

inline connection context::prepare(bytes name)
{
    struct ::pef_names names = PEF_NO_NAMES;
    pef::place where = error::nowhere();
    uint32_t number = 0;
    uint32_t answer = pef_prepare_with_place(&state_->it, name.data(), name.size(), &number, &names, &where);
    if (answer != PEF_OK)
        throw error(answer, where, names);
    return connection(state_, number);
}

inline connection context::prepare_at(bytes name, const std::vector<uint32_t> &addresses)
{
    struct ::pef_names names = PEF_NO_NAMES;
    pef::place where = error::nowhere();
    uint32_t number = 0;
    uint32_t answer = pef_prepare_at(&state_->it, name.data(), name.size(), addresses.data(), addresses.size(), &number, &names, &where);
    if (answer != PEF_OK)
        throw error(answer, where, names);
    return connection(state_, number);
}

} // namespace pef

#endif
