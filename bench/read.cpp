/* Times posology_read beside programs that do the same job with a JSON library's tree: each object's names looked at (unknown, twice), its type and values
 * checked, a record filled for it, strings copied. What they leave out is to their favour: places of refusals, numbers' exact digits, UTF-8 of the text.
 * Then posology_write beside RapidJSON's Writer, which goes through the same records and checks nothing, and posology_length; and the worst texts of 32,768 bytes.
 * Built and run by bench/read. */
#include <cjson/cJSON.h>
#include <rapidjson/document.h>
#include <rapidjson/stringbuffer.h>
#include <rapidjson/writer.h>
#include <simdjson.h>

#include <algorithm>
#include <cmath>
#include <cstdint>
#include <cstdio>
#include <cstring>
#include <ctime>
#include <string>
#include <string_view>
#include <vector>

#include "../include/posology.h"

struct Record {
  int kind;
  uint64_t below, a, b, c, d;
};
struct Table {
  size_t count = 0, text = 0;
  Record records[64];
  char strings[2048];
};

/* The trees of the three libraries, seen in one way. */
struct Cj {
  const cJSON *v;
  bool object() const { return cJSON_IsObject(v); }
  bool array() const { return cJSON_IsArray(v); }
  bool number() const { return cJSON_IsNumber(v); }
  bool string() const { return cJSON_IsString(v); }
  double num() const { return v->valuedouble; }
  std::string_view str() const { return v->valuestring; }
  template <class F> bool members(F f) const {
    for (const cJSON *m = v->child; m; m = m->next)
      if (!f(std::string_view(m->string), Cj{m})) return false;
    return true;
  }
  template <class F> bool elements(F f) const {
    for (const cJSON *m = v->child; m; m = m->next)
      if (!f(Cj{m})) return false;
    return true;
  }
};
struct Rj {
  const rapidjson::Value *v;
  bool object() const { return v->IsObject(); }
  bool array() const { return v->IsArray(); }
  bool number() const { return v->IsNumber(); }
  bool string() const { return v->IsString(); }
  double num() const { return v->GetDouble(); }
  std::string_view str() const { return {v->GetString(), v->GetStringLength()}; }
  template <class F> bool members(F f) const {
    for (auto &m : v->GetObject())
      if (!f(std::string_view(m.name.GetString(), m.name.GetStringLength()), Rj{&m.value})) return false;
    return true;
  }
  template <class F> bool elements(F f) const {
    for (auto &m : v->GetArray())
      if (!f(Rj{&m})) return false;
    return true;
  }
};
struct Sj {
  simdjson::dom::element v;
  bool object() const { return v.is_object(); }
  bool array() const { return v.is_array(); }
  bool number() const { return v.is_number(); }
  bool string() const { return v.is_string(); }
  double num() const { return v.get_double().value_unsafe(); }
  std::string_view str() const { return v.get_string().value_unsafe(); }
  template <class F> bool members(F f) const {
    simdjson::dom::object o = v.get_object().value_unsafe();
    for (auto m : o)
      if (!f(m.key, Sj{m.value})) return false;
    return true;
  }
  template <class F> bool elements(F f) const {
    simdjson::dom::array a = v.get_array().value_unsafe();
    for (auto m : a)
      if (!f(Sj{m})) return false;
    return true;
  }
};

/* An object's members by the names that it may have: false for an unknown name or one that stands twice. */
template <class J, size_t N> bool named(J o, const char *const (&names)[N], const J *(&at)[N], J (&store)[N]) {
  std::fill(at, at + N, nullptr);
  return o.object() && o.members([&](std::string_view n, J v) {
    for (size_t i = 0; i < N; i++)
      if (n == names[i]) {
        if (at[i]) return false;
        store[i] = v, at[i] = &store[i];
        return true;
      }
    return false;
  });
}

static bool decimal(double x, uint64_t &out) {
  if (x < 0 || x > 999999.999999) return false;
  out = std::llround(x * 1e6);
  return std::fabs(x * 1e6 - out) < 1e-3;
}
template <class J> bool decimal(const J *v, uint64_t &out) { return v && v->number() && decimal(v->num(), out); }
template <class J> bool integer(const J *v, uint64_t least, uint64_t most, uint64_t &out) {
  if (!v || !v->number()) return false;
  double x = std::floor(v->num() + 0.5);
  out = x;
  return x >= least && x <= most;
}
static Record *add(Table &t, int kind) {
  if (t.count == 64) return nullptr;
  t.records[t.count] = Record{kind, 0, 0, 0, 0, 0};
  return &t.records[t.count++];
}
static bool keep(Table &t, std::string_view s, uint64_t &start, uint64_t &len) {
  if (t.text + s.size() > sizeof t.strings) return false;
  std::memcpy(t.strings + t.text, s.data(), s.size());
  start = t.text, len = s.size(), t.text += s.size();
  return true;
}
static bool two(const char *p, unsigned &n) {
  if (p[0] < '0' || p[0] > '9' || p[1] < '0' || p[1] > '9') return false;
  n = (p[0] - '0') * 10 + p[1] - '0';
  return true;
}
static bool date(std::string_view s) {
  unsigned c, y, m, d;
  return s.size() >= 10 && two(&s[0], c) && two(&s[2], y) && s[4] == '-' && two(&s[5], m) && s[7] == '-' && two(&s[8], d) && m >= 1 && m <= 12 && d >= 1 && d <= 31;
}
static bool clock_time(std::string_view s, uint64_t &out) {
  unsigned h, m, x = 0;
  if (s.size() != 5 && s.size() != 8) return false;
  if (!two(&s[0], h) || s[2] != ':' || !two(&s[3], m) || (s.size() == 8 && (s[5] != ':' || !two(&s[6], x)))) return false;
  out = h * 3600 + m * 60 + x;
  return h < 24 && m < 60 && x < 60;
}

#define NAMED(J, o, ...)                         \
  static const char *const names[] = {__VA_ARGS__}; \
  constexpr size_t N = sizeof names / sizeof *names; \
  const J *at[N];                                \
  J store[N];                                    \
  if (!named<J, N>(o, names, at, store)) return false;

template <class J> bool type_of(J o, uint64_t most, uint64_t &t) {
  if (!o.object()) return false;
  bool ok = false;
  o.members([&](std::string_view n, J v) {
    if (n != "t") return true;
    ok = integer(&v, 1, most, t);
    return false;
  });
  return ok;
}
template <class J> bool dosage(J o, Table &t) {
  uint64_t k;
  Record *r;
  if (!type_of(o, 3, k) || !(r = add(t, 11 + k))) return false;
  if (k == 1) {
    NAMED(J, o, "t", "a")
    return decimal(at[1], r->a) && r->a > 0;
  }
  if (k == 2) {
    NAMED(J, o, "t", "aFrom", "aTo", "duU", "du")
    return decimal(at[1], r->a) && decimal(at[2], r->b) && integer(at[3], 1, 7, r->c) && integer(at[4], 1, 99999, r->d) && r->a < r->b;
  }
  NAMED(J, o, "t", "aMin", "aMax")
  return decimal(at[1], r->a) && decimal(at[2], r->b) && r->a > 0 && r->a < r->b;
}
template <class J> bool days(const J *v, uint64_t most, uint64_t &set) {
  set = 0;
  return v && v->array() && v->elements([&](J e) {
    uint64_t d;
    if (!integer(&e, 1, most, d) || (set >> (d - 1) & 1)) return false;
    set |= 1ull << (d - 1);
    return true;
  }) && set;
}
template <class J> bool timed(J o, Table &t) {
  uint64_t k;
  Record *r;
  if (!type_of(o, 6, k) || !(r = add(t, 5 + k))) return false;
  size_t own = t.count;
  bool ok = false;
  if (k == 1) {
    NAMED(J, o, "t", "do")
    ok = at[1] && dosage(*at[1], t);
  } else if (k == 2) {
    NAMED(J, o, "t", "ts")
    ok = at[1] && at[1]->array() && at[1]->elements([&](J e) {
      Record *x = add(t, 17);
      NAMED(J, e, "do", "dt")
      return x && at[0] && dosage(*at[0], t) && at[1] && at[1]->string() && clock_time(at[1]->str(), x->a);
    });
  } else if (k == 3) {
    NAMED(J, o, "t", "ss")
    ok = at[1] && at[1]->array() && at[1]->elements([&](J e) {
      Record *x = add(t, 18);
      NAMED(J, e, "do", "s")
      return x && at[0] && dosage(*at[0], t) && integer(at[1], 1, 4, x->a);
    });
  } else if (k == 4) {
    NAMED(J, o, "t", "wds", "tdo")
    ok = days(at[1], 7, r->a) && at[2] && timed(*at[2], t);
  } else if (k == 5) {
    NAMED(J, o, "t", "doms", "tdo")
    ok = days(at[1], 28, r->a) && at[2] && timed(*at[2], t);
  } else {
    NAMED(J, o, "t", "do", "miDu", "miDuU")
    ok = at[1] && dosage(*at[1], t) && integer(at[2], 1, 99999, r->a) && integer(at[3], 1, 7, r->b);
  }
  r->below = t.count - own;
  return ok;
}
template <class J> bool detail(J o, Table &t, int left) {
  uint64_t k;
  Record *r;
  if (!type_of(o, 5, k) || !(r = add(t, k))) return false;
  size_t own = t.count;
  bool ok = false;
  if (k == 1) {
    NAMED(J, o, "t", "ds")
    uint64_t *to[] = {&r->a, &r->b, &r->c, &r->d};
    int i = 0;
    ok = at[1] && at[1]->array() && at[1]->elements([&](J e) { return i < 4 && decimal(&e, *to[i++]); }) && i == 4;
  } else if (k == 2) {
    NAMED(J, o, "t", "text")
    ok = at[1] && at[1]->string() && keep(t, at[1]->str(), r->a, r->b) && r->b;
  } else if (k == 3) {
    NAMED(J, o, "t", "tdo")
    ok = at[1] && timed(*at[1], t);
  } else if (k == 4) {
    NAMED(J, o, "t", "cyDuU", "cyDu", "tdo", "tdpc")
    r->c = 1;
    ok = integer(at[1], 1, 7, r->a) && integer(at[2], 1, 99999, r->b) && at[3] && timed(*at[3], t) && (!at[4] || integer(at[4], 1, 99999, r->c));
  } else if (left) {
    NAMED(J, o, "t", "sos")
    ok = at[1] && at[1]->array() && at[1]->elements([&](J e) {
      uint64_t u;
      Record *x;
      if (!type_of(e, 2, u) || !(x = add(t, 14 + u))) return false;
      size_t first = t.count;
      if (u == 1) {
        NAMED(J, e, "t", "du", "duU", "po")
        bool good = integer(at[1], 1, 99999, x->a) && integer(at[2], 1, 7, x->b) && at[3] && detail(*at[3], t, left - 1);
        x->below = t.count - first;
        return good;
      }
      NAMED(J, e, "t", "du", "duU")
      return integer(at[1], 1, 99999, x->a) && integer(at[2], 1, 7, x->b);
    });
  }
  r->below = t.count - own;
  return ok;
}
template <class J> bool posology(J o, Table &t) {
  uint64_t start, len, meal;
  NAMED(J, o, "dtFrom", "dtTo", "inRes", "po", "relMeal", "unit", "applInstr", "roa", "moa")
  for (int i = 0; i < 2; i++)
    if (at[i] && !(at[i]->string() && date(at[i]->str()))) return false;
  if (!at[3] || !detail(*at[3], t, 3)) return false;
  if (at[4] && !integer(at[4], 1, 6, meal)) return false;
  if (!at[5]) return false;
  for (int i = 5; i < 9; i++)
    if (at[i] && !(at[i]->string() && keep(t, at[i]->str(), start, len))) return false;
  return true;
}

static bool by_cjson(const std::string &s) {
  Table t;
  cJSON *v = cJSON_ParseWithLength(s.data(), s.size());
  bool ok = v && posology(Cj{v}, t);
  cJSON_Delete(v);
  return ok;
}
static bool by_rapidjson(const std::string &s) {
  Table t;
  rapidjson::Document d;
  d.Parse(s.data(), s.size());
  return !d.HasParseError() && posology(Rj{&d}, t);
}
static bool by_simdjson(const std::string &s) {
  static simdjson::dom::parser parser;
  Table t;
  simdjson::dom::element e;
  return !parser.parse(s).get(e) && posology(Sj{e}, t);
}
static uint8_t strings[2048], area[POSOLOGY_TABLE_BYTES];
static bool by_posology(const std::string &s) {
  uint64_t place;
  return posology_read((const uint8_t *)s.data(), s.size(), 1, strings, sizeof strings, area, sizeof area, &place) == 0;
}


/* A table out of the area, and its text by RapidJSON's Writer. */
struct Plan {
  uint64_t head[26], words[64][6];
};
static uint64_t eight(size_t i) {
  uint64_t x = 0;
  for (int k = 7; k >= 0; k--) x = x << 8 | area[i * 8 + k];
  return x;
}
static Plan plan_of() {
  Plan p;
  for (size_t i = 0; i < 26; i++) p.head[i] = eight(i);
  for (size_t i = 0; i < 384; i++) p.words[i / 6][i % 6] = eight(26 + i);
  return p;
}
using Out = rapidjson::Writer<rapidjson::StringBuffer>;
static void put_amount(Out &w, const char *name, uint64_t x) {
  w.Key(name);
  x % 1000000 ? w.Double(x / 1e6) : w.Uint64(x / 1000000);
}
static void put_number(Out &w, const char *name, uint64_t x) { w.Key(name), w.Uint64(x); }
static void put_two(char *&p, uint64_t x) { *p++ = '0' + x / 10, *p++ = '0' + x % 10; }
static void put_clock(char *&p, uint64_t s) { put_two(p, s / 3600), *p++ = ':', put_two(p, s / 60 % 60), *p++ = ':', put_two(p, s % 60); }
static void put_date(Out &w, const char *name, const uint64_t *d) {
  if (!d[0]) return;
  char b[40], *p = b;
  put_two(p, d[1] / 100), put_two(p, d[1] % 100), *p++ = '-', put_two(p, d[2]), *p++ = '-', put_two(p, d[3]);
  if (d[0] == 2) *p++ = 'T', put_clock(p, d[4]), *p++ = d[5] ? '-' : '+', put_two(p, d[6] / 60), *p++ = ':', put_two(p, d[6] % 60);
  w.Key(name), w.String(b, p - b);
}
static void put_dosage(Out &w, const uint64_t *r) {
  w.StartObject(), put_number(w, "t", r[0] - 11);
  if (r[0] == 12) put_amount(w, "a", r[2]);
  else put_amount(w, r[0] == 13 ? "aFrom" : "aMin", r[2]), put_amount(w, r[0] == 13 ? "aTo" : "aMax", r[3]);
  if (r[0] == 13) put_number(w, "duU", r[4]), put_number(w, "du", r[5]);
  w.EndObject();
}
static void put_days(Out &w, const char *name, uint64_t set) {
  w.Key(name), w.StartArray();
  for (uint64_t d = 1; set; d++, set >>= 1)
    if (set & 1) w.Uint64(d);
  w.EndArray();
}
static void put_timed(Out &w, const Plan &p, size_t i) {
  const uint64_t *r = p.words[i];
  w.StartObject(), put_number(w, "t", r[0] - 5);
  if (r[0] == 6 || r[0] == 11) w.Key("do"), put_dosage(w, p.words[i + 1]);
  if (r[0] == 7 || r[0] == 8) {
    w.Key(r[0] == 7 ? "ts" : "ss"), w.StartArray();
    for (size_t k = i + 1; k <= i + r[1]; k += 2) {
      w.StartObject(), w.Key("do"), put_dosage(w, p.words[k + 1]);
      char b[8], *q = b;
      if (r[0] == 7) put_clock(q, p.words[k][2]), w.Key("dt"), w.String(b, 8);
      else put_number(w, "s", p.words[k][2]);
      w.EndObject();
    }
    w.EndArray();
  }
  if (r[0] == 9 || r[0] == 10) put_days(w, r[0] == 9 ? "wds" : "doms", r[2]), w.Key("tdo"), put_timed(w, p, i + 1);
  if (r[0] == 11) put_number(w, "miDu", r[2]), put_number(w, "miDuU", r[3]);
  w.EndObject();
}
static void put_detail(Out &w, const Plan &p, size_t i) {
  const uint64_t *r = p.words[i];
  w.StartObject(), put_number(w, "t", r[0]);
  if (r[0] == 1) {
    w.Key("ds"), w.StartArray();
    for (int k = 2; k < 6; k++) r[k] % 1000000 ? w.Double(r[k] / 1e6) : w.Uint64(r[k] / 1000000);
    w.EndArray();
  }
  if (r[0] == 2) w.Key("text"), w.String((const char *)strings + r[2], r[3]);
  if (r[0] == 3) w.Key("tdo"), put_timed(w, p, i + 1);
  if (r[0] == 4) {
    put_number(w, "cyDuU", r[2]), put_number(w, "cyDu", r[3]), w.Key("tdo"), put_timed(w, p, i + 1);
    if (r[4] != 1) put_number(w, "tdpc", r[4]);
  }
  if (r[0] == 5) {
    w.Key("sos"), w.StartArray();
    for (size_t k = i + 1; k <= i + r[1]; k += 1 + p.words[k][1]) {
      w.StartObject(), put_number(w, "t", p.words[k][0] - 14), put_number(w, "du", p.words[k][2]), put_number(w, "duU", p.words[k][3]);
      if (p.words[k][0] == 15) w.Key("po"), put_detail(w, p, k + 1);
      w.EndObject();
    }
    w.EndArray();
  }
  w.EndObject();
}
static void by_writer(const Plan &p, rapidjson::StringBuffer &b) {
  b.Clear();
  Out w(b);
  const uint64_t *h = p.head;
  w.StartObject(), put_date(w, "dtFrom", h), put_date(w, "dtTo", h + 7);
  if (h[14]) w.Key("inRes"), w.Bool(true);
  w.Key("po"), put_detail(w, p, 0);
  if (h[15]) put_number(w, "relMeal", h[15]);
  const char *const names[] = {"unit", "applInstr", "roa", "moa"};
  for (int i = 0; i < 4; i++)
    if (h[17 + 2 * i]) w.Key(names[i]), w.String((const char *)strings + h[16 + 2 * i], h[17 + 2 * i]);
  w.EndObject();
}
static uint8_t written[POSOLOGY_PLAIN_BYTES];
static uint64_t by_posology_write(uint64_t &place) { return posology_write(area, sizeof area, strings, sizeof strings, 1, written, sizeof written, &place); }
static uint64_t by_posology_length(uint64_t &place) { return posology_length(area, sizeof area, strings, sizeof strings, 1, &place); }

static double now() {
  timespec t;
  clock_gettime(CLOCK_MONOTONIC, &t);
  return t.tv_sec * 1e9 + t.tv_nsec;
}
template <class F> double least(F f, int n) {
  double b = 1e18;
  for (int i = 0; i < 41; i++) {
    double a = now();
    for (int k = 0; k < n; k++) f();
    b = std::min(b, (now() - a) / n);
  }
  return b;
}
template <class F> double best(F f, const std::string &s) {
  return least([&] { f(s); }, s.size() > 20000 ? 3 : s.size() > 1000 ? 50 : 500);
}

static std::string repeated(std::string head, const char *part, std::string tail) {
  while (head.size() + std::strlen(part) + tail.size() <= 32768) head += part;
  if (head.back() == ',') head.pop_back();
  return head + tail;
}
/* Elements of all kinds in no order, so that no processor learns it. */
static std::string mixed(std::string head, const std::string &tail) {
  const char *const parts[] = {"[],", "\"\",", "1,", "\"a\",", "[[]],", "\"ab\",", "11,", "null,"};
  uint64_t x = 1;
  while (head.size() + 6 + tail.size() <= 32768) head += parts[(x = x * 6364136223846793005u + 1442695040888963407u) >> 61];
  head.pop_back();
  return head + tail;
}
static std::string many_names(const char *form) {
  std::string s = "{";
  char b[80];
  for (int i = 0; s.size() < 32700; i++) {
    std::snprintf(b, sizeof b, form, 'A' + i % 26, 'A' + i / 26 % 26, 'a' + i / 676 % 26);
    s += b;
  }
  s.back() = '}';
  return s;
}

/* So many bytes of a string, with an escape or a character outside ASCII every six. */
static std::string odd_text(size_t n) {
  static const char *const odd[] = {"\xC3\xA4", "\\n", "\xC3\xB6", "\\\"", "\xC3\xBC", "\\u00e9", "\xE2\x80\x93", "\\\\", "\xC3\xA9", "\\t"};
  std::string s;
  for (size_t i = 0, k = 0; s.size() < n; s += odd[k++ % 10])
    for (int j = 0; j < 5; j++) s += "abcdefghij klmnopqrst uvwxyz"[i++ % 28];
  return s;
}
/* The text with a line for each member and element. */
static std::string with_blanks(const std::string &s) {
  std::string o;
  int deep = 0;
  for (size_t i = 0; i < s.size(); i++) {
    char c = s[i];
    if (c == '"') {
      size_t e = i + 1;
      while (s[e] != '"') e += s[e] == '\\' ? 2 : 1;
      o += s.substr(i, e - i + 1), i = e;
    } else if (c == '{' || c == '[') o += c, o += '\n', o.append(2 * ++deep, ' ');
    else if (c == '}' || c == ']') o += '\n', o.append(2 * --deep, ' '), o += c;
    else if (c == ',') o += ",\n", o.append(2 * deep, ' ');
    else o += c, o += c == ':' ? " " : "";
  }
  return o;
}

int main() {
  const std::string times = R"({"t":3,"tdo":{"t":2,"ts":[{"do":{"t":1,"a":1},"dt":"08:00:00"},{"do":{"t":2,"aFrom":1,"aTo":2.5,"duU":4,"du":3},"dt":"12:00:00"},{"do":{"t":3,"aMin":1,"aMax":3},"dt":"16:30:00"},{"do":{"t":1,"a":0.25},"dt":"20:00:00"}]}})";
  std::string sequence, list;
  for (int i = 0; i < 4; i++) sequence += (i ? "," : "") + (R"({"t":1,"du":10,"duU":4,"po":)" + times) + R"(},{"t":2,"du":5,"duU":4})";
  for (int i = 0; i < 31; i++) {
    char b[100];
    std::snprintf(b, sizeof b, R"(%s{"do":{"t":2,"aFrom":%d,"aTo":%d.25,"duU":4,"du":30},"dt":"%02d:%02d:00"})", i ? "," : "", i, i + 1, i / 2, i % 2 * 30);
    list += b;
  }
  struct { const char *name; std::string text; } plans[] = {
      {"Daily", R"({"dtFrom":"2024-05-01","po":{"t":1,"ds":[1,0,0.5,0]},"relMeal":2,"unit":"Tablette","applInstr":"mit Wasser"})"},
      {"typical", R"({"dtFrom":"2024-05-01","dtTo":"2024-06-01","po":{"t":4,"cyDuU":5,"cyDu":1,"tdo":{"t":4,"wds":[1,3,5],"tdo":{"t":2,"ts":[{"do":{"t":1,"a":1.5},"dt":"08:00:00"}]}}},"relMeal":2,"unit":"Tablette"})"},
      {"reordered, blanks", with_blanks(R"({"unit":"Tablette","relMeal":2,"po":{"tdo":{"tdo":{"ts":[{"dt":"08:00:00","do":{"a":1.5,"t":1}}],"t":2},"wds":[1,3,5],"t":4},"cyDu":1,"cyDuU":5,"t":4},"dtTo":"2024-06-01","dtFrom":"2024-05-01"})")},
      {"a sequence", R"({"dtFrom":"2024-05-01","po":{"t":5,"sos":[{"t":1,"du":10,"duU":4,"po":{"t":1,"ds":[1,1,1,0]}},{"t":2,"du":5,"duU":4},{"t":1,"du":10,"duU":4,"po":{"t":3,"tdo":{"t":3,"ss":[{"do":{"t":1,"a":1},"s":1},{"do":{"t":1,"a":2},"s":4}]}}}]},"unit":"Stk","applInstr":"mit Wasser einnehmen"})"},
      {"four times", R"({"dtFrom":"2024-05-01","po":)" + times + R"(,"relMeal":1,"unit":"Stk","applInstr":"vor dem Essen, mit viel Wasser","roa":"PO","moa":"schlucken"})"},
      {"1-3 KB", R"({"dtFrom":"2024-05-01","po":{"t":5,"sos":[)" + sequence + R"(]},"relMeal":1,"unit":"Stk","applInstr":"vor dem Essen, mit viel Wasser einnehmen und danach eine halbe Stunde nicht hinlegen","roa":"PO","moa":"schlucken"})"},
      {"64 records", R"({"dtFrom":"2024-05-01","po":{"t":3,"tdo":{"t":2,"ts":[)" + list + R"(]}},"relMeal":1,"unit":"Stk","applInstr":"vor dem Essen"})"},
      {"64 records, blanks", with_blanks(R"({"dtFrom":"2024-05-01","po":{"t":3,"tdo":{"t":2,"ts":[)" + list + R"(]}},"relMeal":1,"unit":"Stk","applInstr":"vor dem Essen"})")},
      {"text heavy", R"({"po":{"t":2,"text":")" + odd_text(900) + R"("},"unit":"Stk","applInstr":")" + odd_text(900) + R"(","roa":")" + odd_text(150) + R"(","moa":")" + odd_text(150) + R"("})"}};
  std::printf("%-20s %6s %12s %12s %12s %12s\n", "reading, ns", "bytes", "posology", "cJSON", "RapidJSON", "simdjson");
  for (auto &p : plans) {
    if (!by_posology(p.text) || !by_cjson(p.text) || !by_rapidjson(p.text) || !by_simdjson(p.text)) return std::printf("%s was refused\n", p.name), 1;
    std::printf("%-20s %6zu %12.0f %12.0f %12.0f %12.0f\n", p.name, p.text.size(), best(by_posology, p.text), best(by_cjson, p.text), best(by_rapidjson, p.text), best(by_simdjson, p.text));
  }
  std::printf("\n%-20s %6s %12s %12s %12s\n", "writing, ns", "bytes", "posology", "RapidJSON", "length alone");
  for (auto &p : plans) {
    uint64_t place;
    if (!by_posology(p.text) || by_posology_write(place)) return std::printf("%s was not written\n", p.name), 1;
    Plan q = plan_of();
    rapidjson::StringBuffer b;
    by_writer(q, b);
    std::printf("%-20s %6d %12.0f %12.0f %12.0f\n", p.name, (int)place, least([&] { by_posology_write(place); }, 300), least([&] { by_writer(q, b); }, 300), least([&] { by_posology_length(place); }, 300));
  }
  const std::string deep = R"({"unit":"a","po":{"t":5,"sos":[{"t":1,"du":1,"duU":1,"po":{"t":5,"sos":[{"t":1,"du":1,"duU":1,"po":{"t":5,"sos":[{"t":1,"du":1,"duU":1,"po":{"t":4,"cyDuU":6,"cyDu":1,"tdo":{"t":5,"doms":[)", deep_end = R"(],"tdo":{"t":2,"ts":[]}}}}]}}]}}]}})";
  struct { const char *name; std::string text; } worst[] = {
      {"thousands of unknown names", many_names("\"%c%c%c\":1,")},
      {"long names, a common prefix", many_names("\"aaaaaaaaaaaaaaaaaaaaaaaa%c%c%c\":1,")},
      {"escaped names", many_names("\"\\u0061%c%c%c\":1,")},
      {"names outside ASCII", many_names("\"\xC3\xA4%c%c%c\":1,")},
      {"one name of escapes", repeated("{\"", "\\u0061", "\":1}")},
      {"one name outside ASCII", repeated("{\"", "\xC3\xA4", "\":1}")},
      {"blanks only", std::string(32768, ' ')},
      {"escapes only", repeated(R"({"po":{"t":2,"text":")", "\\u0041", R"("},"unit":"a"})")},
      {"outside ASCII only", repeated(R"({"po":{"t":2,"text":")", "\xC3\xA4", R"("},"unit":"a"})")},
      {"a long list", repeated(R"({"po":{"t":1,"ds":[)", "1,", R"(]},"unit":"a"})")},
      {"deep, and a long list", repeated(deep, "1,", deep_end)},
      {"deep, and a mixed list", mixed(deep, deep_end)},
      {"deep, and blanks", repeated(deep, " ", "1" + deep_end)},
      {"long strings", repeated(R"({"po":{"t":2,"text":")", "abcdefgh", R"("},"unit":"a"})")}};
  std::printf("\n%-30s %6s %12s\n", "the worst texts, us", "bytes", "posology");
  for (auto &w : worst) std::printf("%-30s %6zu %12.1f\n", w.name, w.text.size(), best(by_posology, w.text) / 1000);
}
