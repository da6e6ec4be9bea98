/* The library that may be missing. With it, the application finds its weak import. */
static int count;

int extra(int number)
{
    count += number;
    return 1000 + count;
}
