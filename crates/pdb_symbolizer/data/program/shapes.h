// Shapes that are moved and measured: small methods, which a compiler puts into their callers.
#pragma once

namespace shapes {

struct Point {
    int x;
    int y;

    int length() const { return x * x + y * y; }
    Point moved(int by) const {
        return Point{x + by, y - by};
    }
};

template <class Number>
class Counter {
public:
    Counter() : total(0), calls(0) {}

    void add(Number value) {
        total += value;
        calls += 1;
    }

    Number mean() const {
        return calls == 0 ? Number() : total / calls;
    }

private:
    Number total;
    Number calls;
};

int area(const Point *points, int count);
long long weigh(const Point &point, unsigned char weight);

}
