// Whether instances of the service serve: as their operator's ports say, or as a reading of a public port shows.
#pragma once

#include <chrono>
#include <ctime>
#include <mutex>
#include <string>

#include "upstream.h"

struct Condition {
  bool is_well;
  std::string text;  // such as `serving`, or why not
  std::time_t asked;
};

class Health {
 public:
  // As the operator's port at a place says.
  explicit Health(const Place& place) : Health(place, "/health", "", true) {}
  // As a reading of the public port shows, which its caller may have answered; without a token an unknown path is read.
  static Health of_service(int port, const std::string& token);

  // What was answered last, asked anew where that was a while ago, which takes two seconds at most. While a caller asks, others
  // get what was answered before.
  Condition now();

 private:
  Health(const Place& place, std::string target, std::string token, bool is_operators)
      : place_(place), target_(std::move(target)), token_(std::move(token)), is_operators_(is_operators) {}
  Condition known();
  Condition asked() const;
  Condition of(const Said& said) const;

  Place place_;
  std::string target_, token_;
  bool is_operators_;
  std::mutex asking_, mutex_;  // of the caller that asks, who alone changes what follows, and of the condition
  std::chrono::steady_clock::time_point last_ = {};
  Condition condition_ = {};
};
