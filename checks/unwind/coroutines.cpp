// Coroutines, of which each is a function with parts that are resumed, in a program that imports nothing.
typedef unsigned long long u64;
extern "C" int _fltused = 0;
// Pages of the stack are all there, so nothing has to be touched. It keeps all registers.
extern "C" __attribute__((naked)) void __chkstk() { __asm__("ret"); }
extern "C" void *memset(void *to, int value, u64 count) {
  volatile char *bytes = (volatile char *)to;
  for (u64 i = 0; i < count; i++) bytes[i] = (char)value;
  return to;
}
extern "C" void *memcpy(void *to, const void *from, u64 count) {
  volatile char *a = (volatile char *)to;
  const char *b = (const char *)from;
  for (u64 i = 0; i < count; i++) a[i] = b[i];
  return to;
}
char heap[1 << 20];
u64 used;
__attribute__((noinline)) void *operator new(u64 size) {
  used = (used + 15) & ~15ull;
  void *block = heap + used % (sizeof heap / 2);
  used += size;
  return block;
}
void operator delete(void *, u64) noexcept {}
void operator delete(void *) noexcept {}

namespace std {
template <class R, class...> struct coroutine_traits { using promise_type = typename R::promise_type; };
template <class P = void> struct coroutine_handle;
template <> struct coroutine_handle<void> {
  void *frame = nullptr;
  static coroutine_handle from_address(void *frame) { coroutine_handle handle; handle.frame = frame; return handle; }
  void resume() const { __builtin_coro_resume(frame); }
  bool done() const { return __builtin_coro_done(frame); }
  void destroy() const { __builtin_coro_destroy(frame); }
};
template <class P> struct coroutine_handle : coroutine_handle<> {
  static coroutine_handle from_address(void *frame) { coroutine_handle handle; handle.frame = frame; return handle; }
  static coroutine_handle from_promise(P &promise) {
    return from_address(__builtin_coro_promise(&promise, alignof(P), true));
  }
  P &promise() const { return *(P *)__builtin_coro_promise(frame, alignof(P), false); }
};
struct suspend_always {
  bool await_ready() noexcept { return false; }
  void await_suspend(coroutine_handle<>) noexcept {}
  void await_resume() noexcept {}
};
}  // namespace std

#define APART __attribute__((noinline))
struct Numbers {
  struct promise_type {
    u64 value = 0;
    Numbers get_return_object() { return {std::coroutine_handle<promise_type>::from_promise(*this)}; }
    std::suspend_always initial_suspend() noexcept { return {}; }
    std::suspend_always final_suspend() noexcept { return {}; }
    std::suspend_always yield_value(u64 next) noexcept { value = next; return {}; }
    void return_void() {}
    void unhandled_exception() {}
  };
  std::coroutine_handle<promise_type> handle;
  APART bool next(u64 &value) {
    handle.resume();
    value = handle.promise().value;
    return !handle.done();
  }
};
APART u64 mixed(u64 a, u64 b, u64 c) { return (a * 2654435761u ^ b) + (c << 3); }
APART Numbers counted(u64 count, u64 by) {
  volatile u64 room[20];
  for (u64 i = 0; i < count; i++) {
    room[i % 20] = mixed(i, by, count);
    co_yield room[i % 20] + room[(i * 7) % 20 % (i + 1)];
  }
}
// One that goes through another one of its kind, and resumes it in the middle of its own frame.
APART Numbers nested(u64 depth, u64 count) {
  if (depth == 0) {
    for (u64 i = 0; i < count; i++) co_yield mixed(i, count, depth);
    co_return;
  }
  Numbers inner = nested(depth - 1, count);
  u64 value;
  while (inner.next(value)) co_yield mixed(value, depth, count) ^ value;
  inner.handle.destroy();
}
APART u64 summed(Numbers numbers) {
  u64 sum = 0, value;
  while (numbers.next(value)) sum = mixed(sum, value, sum >> 7);
  numbers.handle.destroy();
  return sum;
}
extern "C" u64 start() {
  u64 sum = 0;
  for (u64 round = 0; round < 40; round++) {
    used = 0;
    sum += summed(counted(20 + round % 5, round)) ^ summed(nested(round % 4, 6 + round));
  }
  return sum;
}
