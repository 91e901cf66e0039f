/* Times the shelf's calls on a full shelf of typical plans beside posology_read of its texts one by one, then posology_shelf_at on the worst areas of
 * 65,535 bytes that were found; the least of many runs. Then the stack that each call takes. Built and run by bench/shelf. */
#include <ucontext.h>

#include <algorithm>
#include <cstdint>
#include <cstdio>
#include <cstdlib>
#include <cstring>
#include <ctime>
#include <functional>
#include <string>
#include <vector>

#include "../include/posology.h"

static uint8_t strings[POSOLOGY_STRINGS_BYTES], table[POSOLOGY_TABLE_BYTES];
using Area = std::vector<uint8_t>;
using Texts = std::vector<std::string>;

static const uint8_t *bytes(const std::string &s) { return (const uint8_t *)s.data(); }
static uint64_t put(Area &a, uint64_t number, const std::string &text) {
  uint64_t place;
  return posology_shelf_put(a.data(), a.size(), number, bytes(text), text.size(), POSOLOGY_PRESCRIPTION, &place);
}
static uint64_t fetch(const Area &a, uint64_t number) {
  uint64_t place;
  return posology_shelf_fetch(a.data(), a.size(), number, strings, sizeof strings, table, sizeof table, &place);
}
static uint64_t remove(Area &a, uint64_t number) { return posology_shelf_remove(a.data(), a.size(), number); }
static uint64_t at(const Area &a, uint64_t position) {
  uint64_t number;
  return posology_shelf_at(a.data(), a.size(), position, &number);
}

/* The area of these texts, whether they are plain or not, numbered from 1 on. */
static Area laid(const Texts &texts) {
  Area a;
  uint64_t number = 0;
  for (auto &t : texts) {
    number++;
    for (uint64_t b : {uint64_t(0x50), uint64_t(0x6F), number >> 8, number, uint64_t(t.size() >> 8), uint64_t(t.size())}) a.push_back(b);
    a.insert(a.end(), t.begin(), t.end());
  }
  if (a.size() > POSOLOGY_SHELF_BYTES) std::puts("an area is too long"), std::exit(1);
  a.resize(POSOLOGY_SHELF_BYTES);
  return a;
}
/* As many of these, in turn, as there is room for beside the last one. */
static Texts filled(const Texts &texts, const std::string &last = "") {
  Texts r;
  size_t left = POSOLOGY_SHELF_BYTES - (last.empty() ? 0 : POSOLOGY_SHELF_HEAD + last.size());
  for (size_t i = 0; POSOLOGY_SHELF_HEAD + texts[i % texts.size()].size() <= left; i++) {
    r.push_back(texts[i % texts.size()]);
    left -= POSOLOGY_SHELF_HEAD + r.back().size();
  }
  if (!last.empty()) r.push_back(last);
  return r;
}
static std::string repeated(const std::string &part, size_t times, const std::string &between = "") {
  std::string s;
  for (size_t i = 0; i < times; i++) s += (i ? between : "") + part;
  return s;
}
static std::string padded(std::string head, const std::string &part, const std::string &tail, size_t length) {
  while (head.size() + part.size() + tail.size() <= length) head += part;
  if (head.back() == ',') head.pop_back();
  return head + tail;
}
static std::string names(size_t length) {
  std::string s = "{";
  char b[16];
  for (int i = 0; s.size() + 8 < length; i++) {
    std::snprintf(b, sizeof b, "\"%c%c%c\":1,", 'A' + i % 26, 'A' + i / 26 % 26, 'a' + i / 676 % 26);
    s += b;
  }
  s.back() = '}';
  return s;
}

static double now() {
  timespec t;
  clock_gettime(CLOCK_MONOTONIC, &t);
  return t.tv_sec * 1e6 + t.tv_nsec / 1e3;
}
static double timed(const std::function<void()> &f) {
  double a = now();
  f();
  return now() - a;
}
static double best(const std::function<void()> &f) {
  double b = 1e18;
  for (int i = 0; i < 200; i++) b = std::min(b, timed(f));
  return b;
}
static void expect(uint64_t answer, uint64_t wanted) {
  if (answer != wanted) std::printf("answered %llu and not %llu\n", (unsigned long long)answer, (unsigned long long)wanted), std::exit(1);
}

/* What f writes to of a painted stack, below what a function that does nothing writes to. */
static std::function<void()> called;
static size_t touched(const std::function<void()> &f) {
  static uint8_t stack[1 << 18];
  ucontext_t here, there;
  std::memset(stack, 0xA5, sizeof stack);
  called = f;
  getcontext(&there);
  there.uc_stack.ss_sp = stack;
  there.uc_stack.ss_size = sizeof stack;
  there.uc_link = &here;
  makecontext(&there, [] { called(); }, 0);
  swapcontext(&here, &there);
  return std::find_if(stack, stack + sizeof stack, [](uint8_t b) { return b != 0xA5; }) - stack;
}
static size_t stack_of(const std::function<void()> &f) { return touched([] {}) - touched(f); }

static const Texts PLANS = {
    R"({"dtFrom":"2024-05-01","po":{"t":1,"ds":[1,0,0.5,0]},"relMeal":2,"unit":"Tablette","applInstr":"mit Wasser"})",
    R"({"dtFrom":"2024-05-01","dtTo":"2024-06-01","po":{"t":4,"cyDuU":5,"cyDu":1,"tdo":{"t":4,"wds":[1,3,5],"tdo":{"t":2,"ts":[{"do":{"t":1,"a":1.5},"dt":"08:00:00"}]}}},"relMeal":2,"unit":"Tablette"})",
    R"({"dtFrom":"2024-05-01","po":{"t":5,"sos":[{"t":1,"du":10,"duU":4,"po":{"t":1,"ds":[1,1,1,0]}},{"t":2,"du":5,"duU":4},{"t":1,"du":10,"duU":4,"po":{"t":3,"tdo":{"t":3,"ss":[{"do":{"t":1,"a":1},"s":1},{"do":{"t":1,"a":2},"s":4}]}}}]},"unit":"Stk","applInstr":"mit Wasser einnehmen"})",
    R"({"dtFrom":"2024-05-01","po":{"t":3,"tdo":{"t":2,"ts":[{"do":{"t":1,"a":1},"dt":"08:00:00"},{"do":{"t":2,"aFrom":1,"aTo":2.5,"duU":4,"du":3},"dt":"12:00:00"},{"do":{"t":3,"aMin":1,"aMax":3},"dt":"16:30:00"},{"do":{"t":1,"a":0.25},"dt":"20:00:00"}]}},"relMeal":1,"unit":"Stk","applInstr":"vor dem Essen, mit viel Wasser","roa":"PO","moa":"schlucken"})"};

static std::string text_of(const std::string &text) { return R"({"t":2,"text":")" + text + "\"}"; }
static std::string whole(const std::string &detail) { return "{\"po\":" + detail + "}"; }
/* Three sequences around a detail. */
static const std::string FRONT = R"({"t":5,"sos":[{"t":1,"du":1,"duU":1,"po":)", BACK = "}]}";
static std::string deep(const std::string &detail) { return whole(FRONT + FRONT + FRONT + detail + BACK + BACK + BACK); }
static std::string cyclic(const std::string &timed) { return R"({"t":4,"cyDuU":5,"cyDu":1,"tdo":{"t":4,"wds":[1,2,3,4,5,6,7],"tdo":)" + timed + "}}"; }
static std::string times(size_t n) { return R"({"t":2,"ts":[)" + repeated(R"({"do":{"t":2,"aFrom":0.000001,"aTo":0.000002,"duU":1,"du":1},"dt":"23:59:59"})", n, ",") + "]}"; }

static void typical() {
  Area a(POSOLOGY_SHELF_BYTES);
  Texts texts;
  for (uint64_t i = 0;; i++) {
    uint64_t answer = put(a, i + 1, PLANS[i % PLANS.size()]);
    if (answer == POSOLOGY_NO_ROOM) break;
    expect(answer, 0);
    texts.push_back(PLANS[i % PLANS.size()]);
  }
  const size_t n = texts.size();
  size_t used = 0;
  for (auto &t : texts) used += POSOLOGY_SHELF_HEAD + t.size();
  double one = best([&] {
    uint64_t place;
    for (auto &t : texts) posology_read(bytes(t), t.size(), POSOLOGY_PRESCRIPTION, strings, sizeof strings, table, sizeof table, &place);
  });
  std::printf("%zu plans, %zu bytes\n%-44s %9.0f us\n", n, used, "posology_read of each", one);
  auto row = [&](const char *name, double t) { std::printf("%-44s %9.0f us %6.2f\n", name, t, t / one); };
  expect(at(a, n - 1), 0), row("posology_shelf_at, the last", best([&] { at(a, n - 1); }));
  expect(fetch(a, n), 0), row("posology_shelf_fetch, the last", best([&] { fetch(a, n); }));
  expect(put(a, n + 1, PLANS[3]), 24), row("posology_shelf_put, no room", best([&] { put(a, n + 1, PLANS[3]); }));
  /* The first is removed and put again, so that all the others move; the numbers then stand in another order. */
  double removing = 1e18, putting = 1e18;
  for (size_t i = 0; i < 200; i++) {
    uint64_t r = 0, number = i % n + 1;
    removing = std::min(removing, timed([&] { r = remove(a, number); }));
    expect(r, 0);
    putting = std::min(putting, timed([&] { r = put(a, number, texts[number - 1]); }));
    expect(r, 0);
  }
  row("posology_shelf_remove, the first", removing);
  row("posology_shelf_put, into the room freed", putting);
}

static void worst() {
  const std::string x = whole(text_of("x")), only = whole(R"({"t":3,"tdo":{"t":1,"do":{"t":1,"a":1}}})");
  const std::string controls = repeated("\\u0001", 2048), two = repeated("\xC3\xA9", 1024), four = repeated("\xF0\x9F\x92\x8A", 512);
  const std::string list = padded("{\"po\":" + FRONT + FRONT + FRONT + R"({"t":4,"cyDuU":6,"cyDu":1,"tdo":{"t":5,"doms":[)", "1,", "]}}" + BACK + BACK + BACK + "}", 20736);
  const struct {
    const char *name;
    Texts texts;
  } areas[] = {
      {"the smallest plain texts", filled({x})},
      {"Daily", filled({whole(R"({"t":1,"ds":[0,0,0,0]})")})},
      {"Daily, six digits behind each point", filled({whole(R"({"t":1,"ds":[0.000001,999999.999999,0.000001,999999.999999]})")})},
      {"DosageOnly", filled({only})},
      {"dates with a time", filled({R"({"dtFrom":"2024-05-01T00:00:00+01:00","dtTo":"2024-06-01T00:00:00+01:00","po":{"t":2,"text":"x"}})"})},
      {"every field of the head", filled({R"({"dtFrom":"2024-05-01","dtTo":"2024-06-01","inRes":true,"po":{"t":2,"text":"x"},"relMeal":1,"unit":"x","applInstr":"x","roa":"x","moa":"x"})"})},
      {"62 pauses", filled({whole(R"({"t":5,"sos":[)" + repeated(R"({"t":2,"du":1,"duU":1})", 62, ",") + "]}")})},
      {"three sequences deep, Daily", filled({deep(R"({"t":1,"ds":[0,0,0,0]})")})},
      {"three sequences deep, 63 records", filled({deep(cyclic(times(27)))})},
      {"2,048 letters", filled({whole(text_of(std::string(2048, 'x')))})},
      {"2,048 quotes", filled({whole(text_of(repeated("\\\"", 2048)))})},
      {"2,048 control characters", filled({whole(text_of(controls))})},
      {"1,024 characters of two bytes", filled({whole(text_of(two))})},
      {"512 characters of four bytes", filled({whole(text_of(four))})},
      {"2,048 quotes, three sequences deep", filled({deep(text_of(repeated("\\\"", 2048)))})},
      {"2,048 control characters, the same", filled({deep(text_of(controls))})},
      {"1,024 characters of two bytes, the same", filled({deep(text_of(two))})},
      {"512 characters of four bytes, the same", filled({deep(text_of(four))})},
      {"the smallest, and last thousands of names", filled({x}, names(20736))},
      {"the smallest, and last a long list, deep", filled({x}, list)},
      {"three of 20,736 bytes: thousands of names", Texts(3, names(20736))},
      {"three of 20,736 bytes: escapes", Texts(3, padded(R"({"po":{"t":2,"text":")", "\\u0041", "\"}}", 20736))},
      {"one of 65,000 bytes", {padded(R"({"po":{"t":2,"text":")", "x", "\"}}", 65000)}}};
  double most = 0;
  for (auto &w : areas) {
    const Area a = laid(w.texts);
    double t = best([&] { at(a, 0); });
    most = std::max(most, t);
    std::printf("%-44s %6zu records %9.0f us, answer %llu\n", w.name, w.texts.size(), t, (unsigned long long)at(a, 0));
  }
  std::printf("%-44s %24.0f us\n", "the most", most);
}

static void stack() {
  /* An unknown name in the innermost object, an escape in it, costs the reader most: in the text that is put, and on the shelf, which is then none. */
  std::string plain = deep(cyclic(times(2))), unknown = plain;
  unknown.replace(unknown.find("\"du\":1},"), 4, "\"\\u007a\"");
  const struct {
    const char *name;
    std::string shelved, text;
  } cases[] = {{"FreeText", whole(text_of("x")), whole(text_of("y"))}, {"three sequences deep", plain, plain}, {"the same, an unknown name on the shelf", unknown, plain}, {"the same, an unknown name in the text", plain, unknown}};
  std::printf("%-44s %8s %8s %8s %8s\n", "stack, bytes", "put", "fetch", "remove", "at");
  for (auto &c : cases) {
    Area a = laid({c.shelved});
    size_t p = stack_of([&] { put(a, 7, c.text); }), f = stack_of([&] { fetch(a, 1); }), t = stack_of([&] { at(a, 0); });
    size_t r = stack_of([&] { remove(a, 1); });
    std::printf("%-44s %8zu %8zu %8zu %8zu\n", c.name, p, f, r, t);
  }
  uint64_t place;
  std::printf("%-44s %8zu\n", "posology_read, an unknown name", stack_of([&] { posology_read(bytes(unknown), unknown.size(), 3, strings, sizeof strings, table, sizeof table, &place); }));
}

int main() {
  typical();
  worst();
  stack();
}
