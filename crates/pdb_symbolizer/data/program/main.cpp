#include "shapes.h"

extern "C" int _fltused = 0;

enum class Colour { Red, Green, Blue };

union Bits {
    float number;
    unsigned bits;
};

static volatile int seen;

__declspec(noinline) static int paint(Colour colour, Bits bits) {
    switch (colour) {
    case Colour::Red:
        return seen + static_cast<int>(bits.bits);
    case Colour::Green:
        return seen - 1;
    default:
        return seen;
    }
}

class Picture {
public:
    virtual int draw(int size) {
        shapes::Point point{size, size + 1};
        return static_cast<int>(shapes::weigh(point, 3)) + point.length();
    }
    static int count(const char *text);
};

class Framed : public Picture {
public:
    __declspec(noinline) int draw(int size) override { return Picture::draw(size + seen) * 2; }
};

int Picture::count(const char *text) {
    int length = 0;
    while (text[length] != 0) {
        length++;
    }
    return length;
}

extern "C" int entry() {
    shapes::Point points[3] = {{seen, 2}, {3, seen}, {5, 6}};
    Framed framed;
    Picture *picture = &framed;
    Picture plain;
    if (seen > 2) {
        picture = &plain;
    }
    Bits bits;
    bits.number = static_cast<float>(seen);
    return shapes::area(points, 3) + picture->draw(seen) + paint(static_cast<Colour>(seen), bits) +
           Picture::count("limberlime");
}
