#include "member.h"

#include <cmath>
#include <cstdlib>

Member Member::operator[](const char* name) const {
  static const json none;
  must_be_there();
  if (!value_->is_object()) refuse("must be an object");
  auto found = value_->find(name);
  return Member(found == value_->end() ? none : *found, place_ == "the body" ? name : place_ + "." + name);
}

std::vector<Member> Member::items(size_t least, size_t most) const {
  must_be_there();
  if (!value_->is_array()) refuse("must be a list");
  if (value_->size() < least) refuse("has too few items, at least " + std::to_string(least) + " are needed");
  if (value_->size() > most) refuse("has too many items, at most " + std::to_string(most) + " fit", 413);
  std::vector<Member> found;
  for (const json& it : *value_) found.emplace_back(it, place_ + "[" + std::to_string(found.size()) + "]");
  return found;
}

std::string Member::text() const {
  must_be_there();
  if (!value_->is_string()) refuse("must be a text");
  return value_->get<std::string>();
}

bool Member::truth() const {
  if (is_absent()) return false;
  if (!value_->is_boolean()) refuse("must be true or false");
  return value_->get<bool>();
}

std::string Member::decimal() const {
  must_be_there();
  if (value_->is_number_integer()) return value_->dump();
  if (!value_->is_binary()) refuse("must be a number");
  return {value_->get_binary().begin(), value_->get_binary().end()};
}

double Member::real() const {
  double value = std::strtod(decimal().c_str(), nullptr);
  if (!std::isfinite(value)) refuse("is too large");
  return value;
}

void Member::must_be(const char* word) const {
  if (text() != word) refuse(std::string("must be ") + word);
}
