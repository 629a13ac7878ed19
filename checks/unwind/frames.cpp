// Functions with frames of many kinds: without one, with saved registers, large ones, with a frame pointer, with
// variable arguments, that call themselves, and that end in a jump to another function.
typedef unsigned long long u64;
extern "C" int _fltused = 0;
extern "C" int _purecall() { return 0; }
// Pages of the stack are all there, so nothing has to be touched. It keeps all registers.
extern "C" __attribute__((naked)) void __chkstk() { __asm__("ret"); }
extern "C" void *memset(void *to, int value, u64 count) {
  volatile char *bytes = (volatile char *)to;
  for (u64 i = 0; i < count; i++) bytes[i] = (char)value;
  return to;
}
extern "C" void *memcpy(void *to, const void *from, u64 count) {
  volatile char *a = (volatile char *)to;
  const char *b = (const char *)from;
  for (u64 i = 0; i < count; i++) a[i] = b[i];
  return to;
}
#define APART __attribute__((noinline))
volatile u64 sink;
APART u64 leaf(u64 x) { return x * 2654435761u + 12345; }
APART u64 saved(u64 a, u64 b, u64 c, u64 d) {
  u64 p = leaf(a), q = leaf(b), r = leaf(c), s = leaf(d), t = leaf(a ^ b), u = leaf(c ^ d), v = leaf(a + c);
  for (int i = 0; i < 3; i++) { p += leaf(q); q ^= leaf(r); r += leaf(s); s ^= leaf(t); t += leaf(u); u ^= leaf(v); v += leaf(p); }
  return p + q + r + s + t + u + v;
}
APART u64 large(u64 x) {
  volatile u64 room[3000];
  for (int i = 0; i < 3000; i += 250) room[i] = leaf(x + i);
  u64 sum = 0;
  for (int i = 0; i < 3000; i += 250) sum += room[i];
  return sum + leaf(sum);
}
APART u64 variable(u64 count) {
  volatile u64 *room = (volatile u64 *)__builtin_alloca(count * 8 + 64);
  for (u64 i = 0; i < count; i++) room[i] = leaf(i);
  u64 sum = 0;
  for (u64 i = 0; i < count; i++) sum += room[i] ^ saved(i, count, sum, 7);
  return sum;
}
APART u64 many(int count, ...) {
  __builtin_va_list list;
  __builtin_va_start(list, count);
  u64 sum = 0;
  for (int i = 0; i < count; i++) sum += leaf(__builtin_va_arg(list, u64));
  __builtin_va_end(list);
  return sum;
}
APART u64 nested(u64 n, u64 a) { return n == 0 ? leaf(a) : nested(n - 1, a + n) + leaf(n) * a; }
APART u64 jumps(u64 n) { sink += n; return n & 1 ? saved(n, n + 1, n + 2, n + 3) : large(n); }
APART double floats(double a, double b) {
  double x[20];
  for (int i = 0; i < 20; i++) x[i] = a * i + b;
  double s = 0, t = 1, u = a, v = b, w = a - b, y = a + b, z = a * b, k = 3;
  for (int i = 0; i < 20; i++) { s += x[i]; t *= 1.01; u += s; v += t; w += u; y += v; z += w; k += y; sink += leaf(i); }
  return s + t + u + v + w + y + z + k;
}
struct Shape { virtual u64 area(u64 n) = 0; };
struct Square : Shape { u64 area(u64 n) override { return saved(n, n, n, n); } };
struct Circle : Shape { u64 area(u64 n) override { return leaf(n) + large(n); } };
APART u64 areas(Shape **shapes, u64 count) {
  u64 sum = 0;
  for (u64 i = 0; i < count; i++) sum += shapes[i & 1]->area(i);
  return sum;
}
extern "C" int start() {
  Square square;
  Circle circle;
  Shape *shapes[2] = {&square, &circle};
  u64 sum = 0;
  for (u64 round = 0; round < 1000; round++) {
    sum += saved(round, 2, 3, 4) + large(round) + variable(round % 9 + 1) + many(5, round, 2ull, 3ull, 4ull, 5ull);
    sum += nested(round % 20, round) + jumps(round) + areas(shapes, 4) + (u64)floats(1.5, (double)round);
  }
  sink = sum;
  return (int)sum;
}
