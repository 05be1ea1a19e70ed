// A value of a body with its place in it, which a refusal names.
#pragma once

#include <string>
#include <vector>

#include "refusal.h"
#include "translate.h"

class Member {
 public:
  explicit Member(const json& value, std::string place = "the body") : value_(&value), place_(std::move(place)) {}

  [[noreturn]] void refuse(const std::string& why, int status = 400) const { throw Refusal(status, place_ + " " + why); }

  // A member that is null counts as absent, as it does for the service.
  bool is_absent() const { return value_->is_null(); }

  Member operator[](const char* name) const;
  // The items of a list of at least one, and of at most so many.
  std::vector<Member> items(size_t least, size_t most) const;
  std::string text() const;
  bool truth() const;           // absent means false
  std::string decimal() const;  // a number's text
  double real() const;
  // That it is this word, as of units.
  void must_be(const char* word) const;

 private:
  void must_be_there() const {
    if (is_absent()) refuse("is needed");
  }
  const json* value_;
  std::string place_;
};
