/*
 * Makes each call of pef.hpp, and compares what it gives. What differs is printed, a line each, and the status is then 1.
 */
#include "../../include/pef.hpp"

#include <cstdio>
#include <type_traits>

static unsigned compared, different;

static void expect(const char *what, bool holds)
{
    compared++;
    if (holds)
        return;
    different++;
    std::printf("differs: %s\n", what);
}

/* The error that something throws, or one with the number 0. */
template <class Work> static pef::error thrown(Work work)
{
    try {
        work();
    } catch (const pef::error &error) {
        return error;
    }
    return pef::error(0);
}

static const char tools_script[] = "section data data process 4 4\nbytes data 0000002A\nexport answer data data 0\n";
static const char app_script[] = "library Tools 1 0 -\nimport answer data strong\nsection data data process 4 8\nbytes data 0000000000000000\nfix data 0 import answer\nfix data 4 section data\nmain data 0\n";

static void test_bytes()
{
    pef::buffer none;
    expect("no bytes", pef::bytes().empty() && pef::bytes(none).data() != nullptr && pef::bytes(nullptr, 0).data() != nullptr);
    expect("text", pef::bytes("abc").text() == "abc" && pef::bytes(std::string("abc")) == "abc" && pef::bytes("abc") != "abd" && pef::bytes("abc")[1] == 'b');
    expect("a copy", pef::bytes("ab").copy() == pef::buffer({'a', 'b'}));
}

static void test_link()
{
    expect("a container", pef::bytes(pef::link(tools_script).data(), 8) == "Joy!peff");
    pef::error error = thrown([] { pef::link("section d data process 4 8\nfix d 0 section d\nfix d 2 section d\n"); });
    expect("the error of a script", error.number == PEF_SCRIPT_OVERLAP && error.line == 3 && error.where.part == PEF_LINE_PART && error.where.offset == 51);
    expect("what it says", error.what() == std::string("46 Overlap line 3") && error.name == "Overlap" && !error.help.empty());
    expect("a long container", pef::link("section d data process 4 100000\nbytes d " + std::string(200000, '1') + "\n").size() > 100000);
}

static void test_distances()
{
    static const char printed[] = "pefcert 2\nsection 0\nfixups 0\nlength 0\nprogram -\nregisters *\nat 0 0 0\nend\n";
    expect("certificates", pef::distances(tools_script) == printed);
    /* 129 rows of 289 labels, all different, are more. */
    std::string lines = "section s0 data process 0 65536\n";
    for (int i = 1; i < 16; i++)
        lines += "section s" + std::to_string(i) + " data process 0 0\n";
    for (int i = 0; i < 128; i++)
        lines += "fix s0 " + std::to_string(512 * i) + " section s" + std::to_string(i % 16) + "\n";
    std::string many = pef::distances(lines);
    expect("more than the first buffer", many.size() > 65536 && many.substr(many.size() - 5) == "\nend\n");
    pef::error error = thrown([] { pef::distances("section d data process 4 8\nfix d 0 section d\nfix d 2 section d\n"); });
    expect("the error of its script", error.number == PEF_SCRIPT_OVERLAP && error.line == 3 && error.where.offset == 51);
}

static void test_container()
{
    pef::buffer contents = pef::link(app_script);
    pef::container app(contents);
    expect("the header", app.header().section_count == 2 && app.loader().import_count == 1);
    pef::imported imported;
    size_t number = 7;
    expect("an import by its name", app.find_import("answer", number, imported) && number == 0 && !imported.weak && !app.find_import("question", number, imported));
    expect("a library", app.libraries().size() == 1 && pef::bytes(app.libraries()[0].name) == "Tools");
    expect("an import", app.imports().size() == 1 && pef::bytes(app.imports()[0].name) == "answer" && app.imports()[0].library == 0);
    expect("a relocation", app.relocations().size() == 1 && app.fixups(0).size() == 2 && app.fixups(0)[1].offset == 4 && app.fixups(0)[1].kind == PEF_FIXUP_SECTION);
    expect("no findings", pef::findings(contents).empty());
    pef::buffer tools_contents = pef::link(tools_script);
    pef::container tools(tools_contents);
    pef::exported found;
    expect("an export", tools.exports().size() == 1 && tools.find("answer", found) && found.section == 0 && !tools.find("question", found));
    expect("an image", tools.image(0) == pef::buffer({0, 0, 0, 42}));
    pef::bytes raw;
    expect("a section", tools.section(0, raw).kind == PEF_KIND_DATA && raw.size() == 4 && raw.data() > tools_contents.data());
    expect("no section", thrown([&] { tools.section(2, raw); }).number == PEF_NOT_THERE);
    pef::buffer packed_contents = pef::link("section d pattern process 4 64\nbytes d " + std::string(64, '0') + "01\n");
    pef::container packed(packed_contents);
    expect("a packed image", packed.image(0).size() == 33 && packed.image(0)[32] == 1);
    tools_contents[15] = 2;
    expect("a finding", pef::findings(tools_contents).size() == 1 && pef::findings(tools_contents)[0].number == PEF_BAD_FORMAT_VERSION);
    pef::error error = thrown([&] { pef::container again(tools_contents); });
    expect("the error of a container", error.number == PEF_BAD_FORMAT_VERSION && error.where.part == PEF_CONTAINER_HEADER_PART && error.where.offset == 12);
}

static void test_parts()
{
    pef::buffer contents = pef::link(tools_script);
    pef::listing listing(contents);
    char first[9];
    expect("a part", listing.next(first, sizeof first) == 9 && std::string(first, 9) == "container");
    pef::listing moved = std::move(listing);
    std::string rest = moved.rest();
    expect("the rest", rest.find("export answer class 1 section 0") != std::string::npos && moved.rest().empty());
    expect("a listing that was moved", thrown([&] { listing.rest(); }).number == PEF_NOT_OPEN);
    std::string report = pef::report("a file", contents).rest();
    expect("a report", report.find("{\"file\":\"a file\"") == 0 && report.back() == '\n');
    const std::vector<pef::found_container> found = pef::found_containers(contents);
    std::string parts = pef::report::head("a file", contents).rest();
    for (size_t i = 0; i + 1 < found.size(); i++)
        parts += pef::report::of(contents, found[i]).rest();
    expect("its parts", found.size() == 2 && parts + pef::report::end(contents, found[1]).rest() == report);
    const pef::row_range sections = {found[0].offset, PEF_SECTION_PART, 0, 1};
    expect("its first section", report.find(pef::report::rows(contents, sections).rest()) != std::string::npos);
    expect("its beginning", pef::report::excerpt(contents, found[0], 1).rest().find("{\"offset\":0,") == 0);
    expect("no listing", thrown([] { pef::listing none(""); }).number == PEF_TOO_SHORT);
}

static void test_context()
{
    pef::buffer tools = pef::link(tools_script), app_bytes = pef::link(app_script), memory(0x20000);
    pef::context context;
    context.add("Tools", tools);
    context.keep("App", std::move(app_bytes));
    context.reserve(0x10000, 16);
    expect("nothing is missing", context.missing("App").empty());
    pef::connection app = context.prepare("App");
    expect("what is present", context.is_present("Tools") && !context.is_present("None"));
    std::vector<pef::fragment> all = app.fragments();
    expect("fragments", all.size() == 2 && all[0].name() == "Tools" && all[1].name() == "App" && app.init_order().size() == 2 && app.new_fragments().size() == 2);
    for (const pef::fragment &it : all)
        for (size_t k = 0; k < it.section_count(); k++)
            it.copy(k, memory.data() + it.section(k).address, it.section(k).size);
    expect("memory", pef::bytes(memory.data() + 0x10020, 8).copy() == pef::buffer({0, 1, 0, 0x10, 0, 1, 0, 0x20}));
    expect("too small a buffer", thrown([&] { all[0].copy(0, memory.data(), 3); }).number == PEF_ROOM_TOO_SMALL);
    uint32_t address = 0;
    pef::target target;
    expect("a symbol", all[0].symbol("answer", address) && address == 0x10010 && !all[0].symbol("question", address));
    expect("an export", all[0].export_address(0, address) && !all[0].export_address(1, address));
    expect("an import", all[1].import_target(0, target) && target.address == 0x10010 && !all[1].import_target(1, target));
    pef::placed_export placed;
    expect("how many exports", all[0].export_count() == 1 && all[1].export_count() == 0);
    expect("where an export ends", all[0].find("answer", placed) && placed.number == 0 && placed.target.kind == PEF_TARGET_IN_SECTION && placed.target.address == 0x10010);
    expect("an export by its number", all[0].find(0, placed) && pef::bytes(placed.name) == "answer" && !all[0].find(1, placed) && !all[0].find("question", placed));
    size_t number = 7;
    expect("an import by its name", all[1].find_import("answer", number) && number == 0 && !all[1].find_import("question", number) && !all[0].find_import("answer", number));
    pef::location location;
    expect("where an address is", context.at(0x10013, location) && location.fragment == all[0].number() && location.offset == 3 && pef::bytes(location.nearest.name) == "answer");
    expect("nothing exported", context.at(0x10020, location) && location.fragment == all[1].number() && !location.has_nearest);
    expect("no section", !context.at(0x10014, location));
    expect("entries", all[1].entries().has_main && all[1].entries().main == 0x10020 && !all[1].entries().has_init);
    {
        pef::connection other = context.prepare("Tools");
        expect("a second connection", other.number() == 1 && app.released().size() == 1 && other.released().empty());
        pef::connection moved = std::move(other);
        expect("a connection that was moved", thrown([&] { other.fragments(); }).number == PEF_NOT_THERE && moved.fragments().size() == 1);
    }
    expect("it closed when it went", app.released().size() == 2);
    app.close();
    expect("closed", !context.is_present("Tools") && thrown([&] { app.close(); }).number == PEF_BAD_CONNECTION);
    std::vector<pef::new_section> sections = context.new_sections("App");
    expect("new sections", sections.size() == 2 && sections[0].fragment == all[0].number() && sections[1].size == 16 && sections[1].alignment == 16);
    pef::connection there = context.prepare_at("App", {0x12000, 0x11000});
    expect("given addresses", there.fragments()[0].section(0).address == 0x12000 && there.fragments()[1].section(0).address == 0x11000);
    expect("nothing is new", context.new_sections("App").empty() && thrown([&] { context.prepare_at("App", {0x20000}); }).number == PEF_WRONG_ADDRESS_COUNT);
}

static void test_errors()
{
    pef::buffer app = pef::link(app_script);
    pef::context context;
    context.add("App", app);
    expect("what is missing", context.missing("App").size() == 1 && pef::bytes(context.missing("App")[0].name) == "Tools");
    expect("no fragment", thrown([&] { context.missing("None"); }).number == PEF_ROOT_MISSING);
    pef::error error = thrown([&] { context.prepare("App"); });
    expect("a library that is missing", error.number == PEF_LIBRARY_MISSING && error.fragment == "App" && error.library == "Tools" && error.where.part == PEF_LIBRARY_PART);
    expect("what it says", error.what() == std::string("61 LibraryMissing fragment App library Tools"));
    pef::options options = PEF_USUAL_OPTIONS;
    options.granule = 24;
    expect("a granule", thrown([&] { pef::context other(options); }).number == PEF_BAD_GRANULE);
    for (int i = 1; i < 256; i++)
        context.keep("more", pef::buffer());
    expect("too many", thrown([&] { context.keep("more", pef::buffer()); }).number == PEF_STORE_FULL);
}

/* Stubs of what nobody has: their numbers, and who owns them. */
static void test_stubs()
{
    pef::buffer app = pef::link("library Tools 1 0 -\nimport answer data strong\nlibrary Extras 2 1 weak\nimport more tvector strong\nsection d data process 4 8\nfix d 0 import answer\nfix d 4 import more\n");
    pef::context context;
    context.add("App", app);
    std::vector<pef::lacking_library> lacking = context.lacking();
    expect("what is lacking", lacking.size() == 2 && pef::bytes(lacking[0].name) == "Tools" && !lacking[0].is_weak && lacking[1].is_weak);
    pef::stub_options options = PEF_NUMBERED_STUBS;
    options.first = 0x100;
    options.step = 4;
    pef::stub tools = context.stub("Tools", options);
    pef::exported symbol;
    expect("a stub", tools.symbol_count == 1 && pef::container(tools.contents).find("answer", symbol) && symbol.value == 0x100 && symbol.symbol_class == PEF_CLASS_DATA);
    expect("no importers", context.stub("None").symbol_count == 0);
    options.size = 0;
    expect("options of another size", thrown([&] { context.stub("Tools", options); }).number == PEF_BAD_OPTIONS);
    options = PEF_NUMBERED_STUBS;
    options.first = 0xFFFFFFF8;
    options.step = 16;
    pef::error error = thrown([&] { context.add_stubs("App", options); });
    expect("no more numbers", error.number == PEF_PAST_LAST_NUMBER && context.lacking().size() == 2);
    {
        pef::context other;
        other.add("App", app);
        expect("without weak ones", other.add_stubs(PEF_STUBS_IN_MEMORY, false).size() == 1 && other.lacking().size() == 1);
    }
    std::vector<pef::added_stub> added = context.add_stubs("App");
    expect("two stubs", added.size() == 2 && added[0].library == "Tools" && added[1].library == "Extras" && context.lacking().empty() && context.add_stubs().empty());
    pef::connection connection = context.prepare("App");
    pef::buffer memory(8);
    connection.fragments().back().copy(0, memory.data(), memory.size());
    expect("numbers go on", memory == pef::buffer({0xF0, 0, 0, 0, 0xF0, 0, 0, 0x10}));
    expect("what a number means", pef::container(added[1].contents).find("more", symbol) && symbol.section == PEF_ABSOLUTE && symbol.value == 0xF0000010);
}

/* A connection has all that it needs when its context goes first. */
static void test_owners()
{
    std::unique_ptr<pef::connection> kept;
    {
        pef::context context;
        context.keep("Tools", pef::link(tools_script));
        kept.reset(new pef::connection(context.prepare("Tools")));
    }
    expect("a connection without its context", kept->fragments().size() == 1 && kept->fragments()[0].name() == "Tools");
}

static_assert(!std::is_copy_constructible<pef::context>::value && !std::is_copy_constructible<pef::connection>::value, "contexts and connections are moved");
static_assert(!std::is_copy_constructible<pef::listing>::value && std::is_nothrow_move_constructible<pef::listing>::value, "listings are moved");

int main()
{
    test_bytes();
    test_link();
    test_distances();
    test_container();
    test_parts();
    test_context();
    test_errors();
    test_stubs();
    test_owners();
    std::printf("%u compared, %u of them differ\n", compared, different);
    return different == 0 ? 0 : 1;
}
