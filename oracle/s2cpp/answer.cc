// The S2 library itself behind the line protocol: what the published C++ would have answered.
//
// answer QUESTIONS ANSWERS reads questions and the oracle's answers to them, line by line. S2 has no
// refusals, and it ends the program on operands that are not valid. So a question that the oracle
// refuses or takes for none keeps the oracle's answer, and S2 is asked the accepted ones alone. Where
// S2 has no such operation, or does not take the operands, the answer is ?.

#include <csetjmp>
#include <csignal>
#include <cinttypes>
#include <cmath>
#include <cstdint>
#include <cstdio>
#include <cstdlib>
#include <cstring>
#include <fstream>
#include <functional>
#include <iostream>
#include <map>
#include <sstream>
#include <string>
#include <vector>

#include "s2/r1interval.h"
#include "s2/s1interval.h"
#include "s2/s2latlng.h"
#include "s2/s2latlng_rect.h"

namespace {

const char kNoAnswer[] = "?";

// Answers in the protocol's words. An accepted answer has no negative zero.

std::string Numbers(const std::vector<double>& numbers) {
  std::string text = "0";
  for (double x : numbers) {
    const double plain = x == 0 ? 0 : x;
    uint64_t bits;
    std::memcpy(&bits, &plain, sizeof bits);
    if (std::isnan(x)) bits = 0x7FF8000000000000;
    char digits[20];
    std::snprintf(digits, sizeof digits, " %016" PRIX64, bits);
    text += digits;
  }
  return text;
}

std::string Test(bool yes) { return yes ? "0 1" : "0 0"; }
std::string Number(double x) { return Numbers({x}); }
std::string Line(const R1Interval& x) { return Numbers({x.lo(), x.hi()}); }
std::string Circle(const S1Interval& x) { return Numbers({x.lo(), x.hi()}); }

std::string Rect(const S2LatLngRect& x) {
  return Numbers({x.lat().lo(), x.lat().hi(), x.lng().lo(), x.lng().hi()});
}

std::string Pair(const S2LatLng& x) { return Numbers({x.lat().radians(), x.lng().radians()}); }

std::string Distance(double x) { return x == HUGE_VAL ? "0 U" : Number(x); }

// Operands, from the numbers of a question.

using N = const std::vector<double>&;
using Call = std::function<std::string(N)>;

R1Interval L(N n, int start = 0) { return R1Interval(n[start], n[start + 1]); }
S1Interval C(N n, int start = 0) { return S1Interval(n[start], n[start + 1]); }
S2LatLng P(N n, int start = 0) { return S2LatLng::FromRadians(n[start], n[start + 1]); }
S2LatLngRect R(N n, int start = 0) { return S2LatLngRect(L(n, start), C(n, start + 2)); }

// S2 takes no rectangle with lat.hi below -PI/2, though the crate calls an empty one of these valid.
bool Taken(N n, int start) { return std::fabs(n[start + 1]) <= M_PI_2; }

// An operation on a rectangle, or on two.
Call On(std::function<std::string(const S2LatLngRect&, N)> call) {
  return [call](N n) { return Taken(n, 0) ? call(R(n), n) : kNoAnswer; };
}

Call OnTwo(std::function<std::string(const S2LatLngRect&, const S2LatLngRect&, N)> call) {
  return [call](N n) { return Taken(n, 0) && Taken(n, 4) ? call(R(n), R(n, 4), n) : kNoAnswer; };
}

template <typename Interval>
Interval Grown(Interval interval, double p) {
  interval.AddPoint(p);
  return interval;
}

S2LatLngRect Grown(S2LatLngRect rect, const S2LatLng& p) {
  rect.AddPoint(p);
  return rect;
}

// S2 calls the C library's remainder; it has none of its own.
const std::map<std::string, Call> kLine = {
    {"remainder", [](N n) { return Number(std::remainder(n[0], 2 * M_PI)); }},
    {"r1.empty", [](N) { return Line(R1Interval::Empty()); }},
    {"r1.new", [](N n) { return Line(L(n)); }},
    {"r1.from_point", [](N n) { return Line(R1Interval::FromPoint(n[0])); }},
    {"r1.from_point_pair", [](N n) { return Line(R1Interval::FromPointPair(n[0], n[1])); }},
    {"r1.is_empty", [](N n) { return Test(L(n).is_empty()); }},
    {"r1.center", [](N n) { return Number(L(n).GetCenter()); }},
    {"r1.len", [](N n) { return Number(L(n).GetLength()); }},
    {"r1.contains", [](N n) { return Test(L(n).Contains(n[2])); }},
    {"r1.contains_interval", [](N n) { return Test(L(n).Contains(L(n, 2))); }},
    {"r1.interior_contains", [](N n) { return Test(L(n).InteriorContains(n[2])); }},
    {"r1.interior_contains_interval", [](N n) { return Test(L(n).InteriorContains(L(n, 2))); }},
    {"r1.intersects", [](N n) { return Test(L(n).Intersects(L(n, 2))); }},
    {"r1.interior_intersects", [](N n) { return Test(L(n).InteriorIntersects(L(n, 2))); }},
    {"r1.intersection", [](N n) { return Line(L(n).Intersection(L(n, 2))); }},
    // S2 asks for an interval that is not empty.
    {"r1.clamp_point", [](N n) { return L(n).is_empty() ? kNoAnswer : Number(L(n).Project(n[2])); }},
    {"r1.expanded", [](N n) { return Line(L(n).Expanded(n[2])); }},
    {"r1.union", [](N n) { return Line(L(n).Union(L(n, 2))); }},
    {"r1.approx_eq", [](N n) { return Test(L(n).ApproxEquals(L(n, 2))); }},
    {"r1.approx_eq_by", [](N n) { return Test(L(n).ApproxEquals(L(n, 2), n[4])); }},
    {"r1.hausdorff", [](N n) { return Distance(L(n).GetDirectedHausdorffDistance(L(n, 2))); }},
    {"r1.add", [](N n) { return Line(Grown(L(n), n[2])); }},
    {"r1.eq", [](N n) { return Test(L(n) == L(n, 2)); }},
};

const std::map<std::string, Call> kCircle = {
    {"s1.empty", [](N) { return Circle(S1Interval::Empty()); }},
    {"s1.full", [](N) { return Circle(S1Interval::Full()); }},
    {"s1.new", [](N n) { return Circle(C(n)); }},
    {"s1.from_point_pair", [](N n) { return Circle(S1Interval::FromPointPair(n[0], n[1])); }},
    {"s1.is_valid", [](N n) { return Test(C(n).is_valid()); }},
    {"s1.is_full", [](N n) { return Test(C(n).is_full()); }},
    {"s1.is_empty", [](N n) { return Test(C(n).is_empty()); }},
    {"s1.is_inverted", [](N n) { return Test(C(n).is_inverted()); }},
    {"s1.center", [](N n) { return Number(C(n).GetCenter()); }},
    {"s1.len", [](N n) { return Number(C(n).GetLength()); }},
    {"s1.contains", [](N n) { return Test(C(n).Contains(n[2])); }},
    {"s1.contains_interval", [](N n) { return Test(C(n).Contains(C(n, 2))); }},
    {"s1.interior_contains", [](N n) { return Test(C(n).InteriorContains(n[2])); }},
    {"s1.interior_contains_interval", [](N n) { return Test(C(n).InteriorContains(C(n, 2))); }},
    {"s1.intersects", [](N n) { return Test(C(n).Intersects(C(n, 2))); }},
    {"s1.interior_intersects", [](N n) { return Test(C(n).InteriorIntersects(C(n, 2))); }},
    {"s1.union", [](N n) { return Circle(C(n).Union(C(n, 2))); }},
    {"s1.intersection", [](N n) { return Circle(C(n).Intersection(C(n, 2))); }},
    {"s1.expanded", [](N n) { return Circle(C(n).Expanded(n[2])); }},
    {"s1.complement", [](N n) { return Circle(C(n).Complement()); }},
    {"s1.complement_center", [](N n) { return Number(C(n).GetComplementCenter()); }},
    {"s1.hausdorff", [](N n) { return Number(C(n).GetDirectedHausdorffDistance(C(n, 2))); }},
    {"s1.approx_eq", [](N n) { return Test(C(n).ApproxEquals(C(n, 2))); }},
    {"s1.approx_eq_by", [](N n) { return Test(C(n).ApproxEquals(C(n, 2), n[4])); }},
    {"s1.add", [](N n) { return Circle(Grown(C(n), n[2])); }},
    {"s1.eq", [](N n) { return Test(C(n) == C(n, 2)); }},
};

using A = const S2LatLngRect&;

const std::map<std::string, Call> kRect = {
    {"latlng.is_valid", [](N n) { return Test(P(n).is_valid()); }},
    {"rect.empty", [](N) { return Rect(S2LatLngRect::Empty()); }},
    {"rect.full", [](N) { return Rect(S2LatLngRect::Full()); }},
    {"rect.from_center_size", [](N n) { return Rect(S2LatLngRect::FromCenterSize(P(n), P(n, 2))); }},
    {"rect.from_point_pair", [](N n) { return Rect(S2LatLngRect::FromPointPair(P(n), P(n, 2))); }},
    {"rect.from_latlng", [](N n) { return Rect(S2LatLngRect::FromPoint(P(n))); }},
    {"rect.is_valid", [](N n) { return Test(Taken(n, 0) && R(n).is_valid()); }},
    {"rect.is_empty", On([](A a, N) { return Test(a.is_empty()); })},
    {"rect.is_full", On([](A a, N) { return Test(a.is_full()); })},
    {"rect.is_point", On([](A a, N) { return Test(a.is_point()); })},
    {"rect.is_inverted", On([](A a, N) { return Test(a.is_inverted()); })},
    {"rect.vertex", On([](A a, N n) { return Pair(a.GetVertex(static_cast<int>(n[4]))); })},
    {"rect.lo", On([](A a, N) { return Pair(a.lo()); })},
    {"rect.hi", On([](A a, N) { return Pair(a.hi()); })},
    {"rect.center", On([](A a, N) { return Pair(a.GetCenter()); })},
    {"rect.size", On([](A a, N) { return Pair(a.GetSize()); })},
    {"rect.expanded", On([](A a, N n) { return Rect(a.Expanded(P(n, 4))); })},
    {"rect.polar_closure", On([](A a, N) { return Rect(a.PolarClosure()); })},
    {"rect.union", OnTwo([](A a, A b, N) { return Rect(a.Union(b)); })},
    {"rect.intersection", OnTwo([](A a, A b, N) { return Rect(a.Intersection(b)); })},
    {"rect.intersects", OnTwo([](A a, A b, N) { return Test(a.Intersects(b)); })},
    {"rect.interior_intersects", OnTwo([](A a, A b, N) { return Test(a.InteriorIntersects(b)); })},
    {"rect.contains", OnTwo([](A a, A b, N) { return Test(a.Contains(b)); })},
    {"rect.interior_contains", OnTwo([](A a, A b, N) { return Test(a.InteriorContains(b)); })},
    {"rect.contains_latlng", On([](A a, N n) { return Test(a.Contains(P(n, 4))); })},
    {"rect.interior_contains_latlng", On([](A a, N n) { return Test(a.InteriorContains(P(n, 4))); })},
    {"rect.add", On([](A a, N n) { return Rect(Grown(a, P(n, 4))); })},
    {"rect.eq", OnTwo([](A a, A b, N) { return Test(a == b); })},
    {"rect.approx_eq", OnTwo([](A a, A b, N) { return Test(a.ApproxEquals(b)); })},
    {"rect.approx_eq_by", OnTwo([](A a, A b, N n) { return Test(a.ApproxEquals(b, P(n, 8))); })},
};

const Call* Find(const std::string& name) {
  for (const auto* calls : {&kLine, &kCircle, &kRect}) {
    const auto found = calls->find(name);
    if (found != calls->end()) return &found->second;
  }
  return nullptr;
}

// A number is 16 digits of its bit pattern; a vertex number is two digits.
double Read(const std::string& word) {
  const uint64_t digits = std::strtoull(word.c_str(), nullptr, 16);
  if (word.size() == 2) return static_cast<double>(digits);
  double x;
  std::memcpy(&x, &digits, sizeof x);
  return x;
}

// Debian builds S2 with its own checks on. One that fails ends the program by SIGABRT; here it ends
// the question, which is then left without an answer.
sigjmp_buf next_question;

void Stopped(int) { siglongjmp(next_question, 1); }

std::string Answer(const std::string& question, const std::string& oracle) {
  std::istringstream words(question);
  std::string name, word;
  words >> name;
  const Call* call = Find(name);
  if (oracle == kNoAnswer || call == nullptr) return kNoAnswer;
  if (oracle[0] != '0') return oracle;
  std::vector<double> numbers;
  while (words >> word) numbers.push_back(Read(word));
  if (sigsetjmp(next_question, 1) != 0) return kNoAnswer;
  return (*call)(numbers);
}

}  // namespace

int main(int count, char** words) {
  if (count != 3) {
    std::cerr << "usage: answer QUESTIONS ANSWERS\n";
    return 2;
  }
  std::signal(SIGABRT, Stopped);
  std::ifstream questions(words[1]), answers(words[2]);
  std::string question, oracle;
  while (std::getline(questions, question)) {
    if (!std::getline(answers, oracle) || oracle.empty()) {
      std::cerr << "answer: the oracle has no answer to " << question << "\n";
      return 1;
    }
    std::cout << Answer(question, oracle) << '\n';
  }
  return 0;
}
