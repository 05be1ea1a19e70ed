#include "health.h"

#include <algorithm>

namespace {

// How long an answer is waited for, and how long it stands.
constexpr std::chrono::milliseconds kWaiting(2000), kFresh(1000);
constexpr size_t kText = 200;
// The supplier list denies the caller of the reading; the instance itself answers.
constexpr const char* kUnassigned = "unassigned";

// The first line, of visible characters.
std::string line_of(const std::string& text) {
  std::string line = text.substr(0, std::min(text.find('\n'), kText));
  std::replace_if(line.begin(), line.end(), [](char it) { return it < ' ' || it > '~'; }, ' ');
  return line.empty() ? "an empty answer" : line;
}

bool begins(const std::string& text, const std::string& word) { return text.compare(0, word.size(), word) == 0; }

}  // namespace

Health Health::of_service(int port, const std::string& token) {
  return {Place{port}, token.empty() ? "/health" : "/dss/v1/uss_availability/health", token, false};
}

Condition Health::of(const Said& said) const {
  std::time_t now = std::time(nullptr);
  if (is_operators_) return {said.status == 200 && (begins(said.body, "serving") || begins(said.body, "degraded")), line_of(said.body), now};
  json body = json::parse(said.body, nullptr, false);
  json message = body.is_object() ? body.value("message", json()) : json();
  std::string text = message.is_string() ? line_of(message.get<std::string>()) : "status " + std::to_string(said.status);
  if (said.status == 401) return {false, "it does not know the gateway's tokens", now};
  if (said.status >= 500 && text != kUnassigned) return {false, text, now};
  return {true, "answers", now};
}

Condition Health::asked() const {
  auto said = read_within(kWaiting, place_, target_, token_);
  return said ? of(*said) : Condition{false, "no answer", std::time(nullptr)};
}

Condition Health::known() {
  std::lock_guard<std::mutex> lock(mutex_);
  return condition_;
}

Condition Health::now() {
  std::unique_lock<std::mutex> turn(asking_, std::try_to_lock);
  if (Condition before = known(); !turn && before.asked != 0) return before;
  if (!turn) turn.lock();
  if (condition_.asked != 0 && std::chrono::steady_clock::now() - last_ < kFresh) return condition_;
  Condition made = asked();
  last_ = std::chrono::steady_clock::now();
  std::lock_guard<std::mutex> lock(mutex_);
  return condition_ = made;
}
