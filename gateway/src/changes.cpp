#include "changes.h"

#include <openssl/rand.h>

#include <stdexcept>

namespace {

// So many names that are gone are remembered: a viewer who was away for longer gets all items.
constexpr size_t kGone = 20000;

}  // namespace

Changes::Changes() {
  unsigned char drawn[6];
  if (RAND_bytes(drawn, sizeof drawn) != 1) throw std::runtime_error("no number can be drawn");
  for (unsigned char it : drawn) epoch_ += {"0123456789abcdef"[it >> 4], "0123456789abcdef"[it & 15]};
}

void Changes::take(std::map<std::string, std::string> items) {
  long next = number_ + 1;
  for (auto it = items_.begin(); it != items_.end();)
    if (items.count(it->first) == 0) {
      gone_[it->first] = number_ = next;
      it = items_.erase(it);
    } else {
      ++it;
    }
  for (auto& [name, text] : items) {
    Item& item = items_[name];
    if (item.text == text) continue;
    item = {std::move(text), number_ = next};
    gone_.erase(name);
  }
  if (gone_.size() <= kGone) return;
  gone_.clear();
  least_ = number_;
}

std::string Changes::since(const std::string& version) const {
  std::string front = epoch_ + "-", digits = version.compare(0, front.size(), front) == 0 ? version.substr(front.size()) : "";
  bool is_number = !digits.empty() && digits.size() < 16 && digits.find_first_not_of("0123456789") == std::string::npos;
  long number = is_number ? std::stol(digits) : -1;
  bool is_all = number < least_ || number > number_;
  std::string made = "\"version\":\"" + front + std::to_string(number_) + "\",\"is_all\":" + (is_all ? "true" : "false") + ",\"items\":[", between;
  for (const auto& [name, it] : items_) {
    if (!is_all && it.number <= number) continue;
    made += between + it.text;
    between = ",";
  }
  made += "],\"gone\":[";
  between = "";
  for (const auto& [name, it] : gone_) {
    if (is_all || it <= number) continue;
    made += between + "\"" + name + "\"";
    between = ",";
  }
  return made + "]";
}
