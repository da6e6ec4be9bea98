/*
 * Loads fragments: load NAME=FILE .. prepares the first, with the others as its libraries, and prints its memory, as `pef load` does.
 */
#include "../../include/pef.hpp"

#include <cstdio>
#include <fstream>
#include <iterator>
#include <stdexcept>

/* A name, with each byte that isn't printable and each % as % and two digits. */
static std::string shown(pef::bytes name)
{
    std::string text;
    for (uint8_t byte : name) {
        char digits[4];
        std::snprintf(digits, sizeof digits, "%%%02X", static_cast<unsigned>(byte));
        text += byte > 0x20 && byte < 0x7f && byte != '%' ? std::string(1, static_cast<char>(byte)) : digits;
    }
    return text;
}

/* Prints bytes with their addresses, sixteen in a line, in groups of four. */
static void print_memory(uint32_t address, const pef::buffer &memory)
{
    for (size_t i = 0; i < memory.size(); i++) {
        if (i % 16 == 0)
            std::printf("%08X", static_cast<unsigned>(address + i));
        std::printf(i % 4 == 0 ? " %02X" : "%02X", static_cast<unsigned>(memory[i]));
        if (i % 16 == 15 || i + 1 == memory.size())
            std::printf("\n");
    }
}

static void print_fragment(const pef::fragment &fragment)
{
    std::printf("fragment %s\n", shown(fragment.name()).c_str());
    for (size_t number = 0; number < fragment.section_count(); number++) {
        pef::placed_section section = fragment.section(number);
        pef::buffer memory(section.size);
        fragment.copy(number, memory.data(), memory.size());
        std::printf("section %zu at %08X size %zu\n", number, static_cast<unsigned>(section.address), section.size);
        print_memory(section.address, memory);
    }
}

static void print_routine(const char *word, const pef::fragment &fragment, uint32_t address)
{
    std::printf("%s %s %08X\n", word, shown(fragment.name()).c_str(), static_cast<unsigned>(address));
}

/* Prints the routines in the order of initialization, the main symbol of the last fragment, and the others in the reverse order. */
static void print_entries(const pef::connection &app)
{
    std::vector<pef::fragment> order = app.init_order();
    for (const pef::fragment &fragment : order)
        if (fragment.entries().has_init)
            print_routine("init", fragment, fragment.entries().init);
    pef::entries main = app.fragments().back().entries();
    if (main.has_main)
        std::printf("main %08X\n", static_cast<unsigned>(main.main));
    for (size_t i = order.size(); i > 0; i--)
        if (order[i - 1].entries().has_term)
            print_routine("term", order[i - 1], order[i - 1].entries().term);
}

static pef::buffer read_file(const std::string &path)
{
    std::ifstream file(path, std::ios::binary);
    if (!file)
        throw std::runtime_error(path + " can't be read");
    return pef::buffer(std::istreambuf_iterator<char>(file), std::istreambuf_iterator<char>());
}

int main(int count, char **words)
try {
    pef::context context;
    std::string root;
    for (int i = 1; i < count; i++) {
        std::string word = words[i];
        size_t at = word.find('=');
        if (at == std::string::npos)
            throw std::runtime_error(word + " isn't NAME=FILE");
        if (i == 1)
            root = word.substr(0, at);
        context.keep(word.substr(0, at), read_file(word.substr(at + 1)));
    }
    pef::connection app = context.prepare(root);
    for (const pef::fragment &fragment : app.fragments())
        print_fragment(fragment);
    print_entries(app);
    return 0;
} catch (const pef::error &error) {
    std::printf("refused %s\n", error.what());
    std::fprintf(stderr, "%s\n", error.help.c_str());
    return 1;
} catch (const std::exception &error) {
    std::fprintf(stderr, "load: %s\n", error.what());
    return 2;
}
