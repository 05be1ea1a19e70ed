// The instances of a pool, whose health the map shows.
#pragma once

#include <memory>
#include <string>
#include <vector>

#include "health.h"

class Instances {
 public:
  // Of `NAME=http://127.0.0.1:PORT`, with commas in between; none of an empty text, an exception for any other.
  explicit Instances(const std::string& text);

  // Each with its name and its health, in the order given. All that are due are asked at once.
  json shown();

 private:
  struct Instance {
    std::string name;
    std::unique_ptr<Health> health;
  };
  std::vector<Instance> instances_;
};
