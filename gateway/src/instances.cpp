#include "instances.h"

#include <algorithm>
#include <future>
#include <sstream>

namespace {

constexpr size_t kMost = 32;

}  // namespace

Instances::Instances(const std::string& text) {
  std::istringstream words(text);
  for (std::string word; std::getline(words, word, ',');) {
    size_t end = std::min(word.find('='), word.size());
    std::string name = word.substr(0, end);
    auto is_same = [&](const Instance& it) { return it.name == name; };
    if (!is_uss(name) || std::any_of(instances_.begin(), instances_.end(), is_same))
      throw std::runtime_error(word + ": --instances takes NAME=http://127.0.0.1:PORT with commas in between, each name once");
    instances_.push_back({name, std::make_unique<Health>(place_of(word.substr(std::min(end + 1, word.size())), "--instances"))});
  }
  if (instances_.size() > kMost) throw std::runtime_error("--instances takes at most 32 instances");
}

json Instances::shown() {
  std::vector<std::future<Condition>> asked;
  for (Instance& it : instances_) asked.push_back(std::async(std::launch::async, [&it] { return it.health->now(); }));
  json made = json::array();
  for (size_t k = 0; k < instances_.size(); k++) {
    Condition condition = asked[k].get();
    made.push_back({{"name", instances_[k].name}, {"is_well", condition.is_well}, {"state", condition.text}, {"asked", condition.asked}});
  }
  return made;
}
