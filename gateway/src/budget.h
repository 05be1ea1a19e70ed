// What one request may take: so much of a processor, and only while somebody waits for its answer.
#pragma once

#include <atomic>
#include <ctime>

#include "refusal.h"

// Seconds of a processor that the translation of a request may take: a body full of outlines that are not made to be hard takes a third.
constexpr double kSeconds = 1;

class Budget {
 public:
  // Seconds of the thread that makes it. Its processor's time, so that a busy machine refuses nobody.
  explicit Budget(double seconds, const std::atomic<bool>* is_gone = nullptr) : ends_(used() + seconds), is_gone_(is_gone) {}

  bool is_spent() const { return (is_gone_ && *is_gone_) || used() > ends_; }

  void check() const {
    if (is_gone_ && *is_gone_) throw Refusal(499, "the client has gone");
    if (used() > ends_) throw Refusal(413, "the outlines take too long to cover: send fewer, simpler ones around the same area");
  }

 private:
  static double used() {
    std::timespec now{};
    clock_gettime(CLOCK_THREAD_CPUTIME_ID, &now);
    return double(now.tv_sec) + double(now.tv_nsec) / 1e9;
  }

  double ends_;
  const std::atomic<bool>* is_gone_;
};
