// What a map shows as items, each with the number of the change that made it so: viewers get those since their last reading.
#pragma once

#include <map>
#include <string>

class Changes {
 public:
  Changes();

  // All items that there are now, as JSON by their names: numbers the new and the changed ones, and those that are gone.
  void take(std::map<std::string, std::string> items);
  // The members `version`, `is_all`, `items` and `gone` of a JSON object: what changed since a version, and all items where
  // that is not known.
  std::string since(const std::string& version) const;

 private:
  struct Item {
    std::string text;
    long number;
  };
  std::string epoch_;  // of this process
  long number_ = 0, least_ = 0;  // of the last change, and of the first from which on it is known what is gone
  std::map<std::string, Item> items_;
  std::map<std::string, long> gone_;
};
