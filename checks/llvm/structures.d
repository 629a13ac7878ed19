// Templates, mixins, delegates, slices and vectors of D without its runtime, in a program that imports nothing.
extern (C):
__gshared int _fltused = 0;

void __chkstk()
{
    asm { naked; ret; }
}

void* memset(void* to, int value, size_t count)
{
    auto bytes = cast(ubyte*) to;
    while (count--) *bytes++ = cast(ubyte) value;
    return to;
}

void* memcpy(void* to, const void* from, size_t count)
{
    auto here = cast(ubyte*) to;
    auto there = cast(const(ubyte)*) from;
    while (count--) *here++ = *there++;
    return to;
}

void _assert(const char* text, const char* file, uint line)
{
    for (;;) used++;
}

extern (D):
__gshared ulong used;

struct Fixed(T, size_t limit)
{
    T[limit] items;
    size_t length;

    bool push(T item)
    {
        if (length == limit) return false;
        items[length++] = item;
        return true;
    }

    inout(T)[] opSlice() inout return { return items[0 .. length]; }

    T sum() const
    {
        T total = 0;
        foreach (item; this[]) total += item;
        return total;
    }

    int opApply(scope int delegate(size_t, ref T) @nogc nothrow body_) @nogc nothrow
    {
        foreach (position, ref item; items[0 .. length])
            if (auto ended = body_(position, item)) return ended;
        return 0;
    }
}

mixin template Counted()
{
    ulong count;
    void seen(ulong more) { count += more; used ^= count; }
}

struct Tree
{
    mixin Counted;
    Tree* left, right;
    long key;

    void insert(Tree* node)
    {
        auto place = node.key < key ? &left : &right;
        seen(1);
        if (*place) (*place).insert(node);
        else *place = node;
    }

    long walk(scope long delegate(long) @nogc nothrow visit) @nogc nothrow
    {
        long total = left ? left.walk(visit) : 0;
        total += visit(key);
        return total + (right ? right.walk(visit) : 0);
    }
}

ulong power(ulong base)(uint exponent)
{
    static if (base == 2) return 1UL << exponent;
    else return exponent ? base * power!base(exponent - 1) : 1;
}

enum table = () { int[16] squares; foreach (i, ref s; squares) s = cast(int)(i * i); return squares; }();

T clamped(T)(T value, T low, T high)
in (low <= high)
{
    return value < low ? low : value > high ? high : value;
}

pragma(inline, true) ulong mixed(ulong a, ulong b) { return (a * 2654435761u) ^ (b >> 7); }

pragma(inline, false) long kinds(const(char)[] text)
{
    long total;
    foreach (letter; text)
        switch (letter)
        {
        case 'a': .. case 'f': total += letter - 'a' + 10; break;
        case '0': .. case '9': total += letter - '0'; break;
        case ' ': continue;
        default: total ^= mixed(letter, total);
        }
    return total;
}

extern (C) long start()
{
    Fixed!(int, 32) small;
    Fixed!(double, 8) large;
    foreach (i; 0 .. 40) if (!small.push(table[i % 16] + i)) break;
    foreach (i; 0 .. 8) large.push(i * 0.5);
    foreach (position, ref item; small) item += cast(int) clamped(position, 2UL, 9UL);
    __gshared Tree[24] nodes;
    foreach (i, ref node; nodes)
    {
        node.key = cast(long)(mixed(i, used) % 1000);
        if (i) nodes[0].insert(&node);
    }
    long extra = small.sum() + cast(long) clamped(large.sum(), 1.0, 9.5);
    auto total = nodes[0].walk((key) { extra += key; return key + extra; });
    return total + kinds("3f a0 xyz") + cast(long)(power!2(5) + power!3(7));
}
