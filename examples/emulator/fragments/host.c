/* An application that opens plug-ins by their names while it runs, calls them, and closes them. */
#include "cfm.h"
#include "lines.h"

struct plug_in {
    unsigned connection;
    int (*main)(int);
};

static void open_one(struct plug_in *it, const unsigned char *name, const char *text)
{
    void *main = 0;
    print(text, GetSharedLibrary(name, POWERPC, REFERENCE, &it->connection, &main, 0));
    it->main = (int (*)(int))main;
}

static void *find(const struct plug_in *it, const unsigned char *name)
{
    void *address = 0;
    unsigned char symbol_class;
    if (FindSymbol(it->connection, name, &address, &symbol_class) != 0)
        print("not found, but class: ", symbol_class);
    return address;
}

int host_main(void)
{
    static const unsigned char adder_name[] = "\x05" "Adder", doubler_name[] = "\x07" "Doubler";
    static struct plug_in adder, again, doubler, nobody;
    unsigned char symbol_class;
    void *address;
    open_one(&adder, adder_name, "Adder is opened: ");
    print("100 and 5: ", adder.main(5));
    print("and 10: ", adder.main(10));
    open_one(&again, adder_name, "Adder is opened again: ");
    print("and 1: ", again.main(1));
    open_one(&doubler, doubler_name, "Doubler is opened: ");
    print("twice 21: ", doubler.main(21));
    print("calls: ", ((int (*)(void))find(&doubler, (const unsigned char *)"\x0d" "doubler_tally"))());
    print("sum: ", *(int *)find(&adder, (const unsigned char *)"\x03" "sum"));
    print("no such symbol: ", FindSymbol(adder.connection, (const unsigned char *)"\x03" "Sum", &address, &symbol_class));
    open_one(&nobody, (const unsigned char *)"\x06" "Nobody", "no such plug-in: ");
    print("Adder is closed: ", CloseConnection(&adder.connection));
    print("and 1: ", again.main(1));
    print("Adder is closed again: ", CloseConnection(&again.connection));
    print("once too often: ", CloseConnection(&again.connection));
    print("Doubler is closed: ", CloseConnection(&doubler.connection));
    open_one(&doubler, doubler_name, "Doubler is opened: ");
    print("twice 4: ", doubler.main(4));
    open_one(&adder, adder_name, "Adder is opened: ");
    print("100 and 2: ", adder.main(2));
    return 0;
}
