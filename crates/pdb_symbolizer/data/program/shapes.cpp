#include "shapes.h"

namespace {

volatile int sink;

int doubled(int value) {
    sink = value;
    return value * 2;
}

struct Walker {
    int steps;

    int walk(const shapes::Point &point) {
        steps += point.length();
        return doubled(steps);
    }
};

}

namespace shapes {

int area(const Point *points, int count) {
    Counter<int> counter;
    Walker walker{0};
    for (int i = 0; i < count; i++) {
        counter.add(walker.walk(points[i].moved(i)));
    }
    return counter.mean();
}

__declspec(noinline) long long weigh(const Point &point, unsigned char weight) {
    Counter<long long> counter;
    counter.add(point.length());
    counter.add(weight);
    sink = doubled(point.x);
    return counter.mean();
}

}
