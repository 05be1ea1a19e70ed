#include "shares.h"

bool Shares::enter(const std::string& supplier, std::function<void()> turn) {
  Share& share = shares_[supplier];
  if (share.busy < at_once_) {
    share.busy++;
    turn();
    return true;
  }
  if (share.waiting.size() == waiting_) return false;
  share.waiting.push_back(std::move(turn));
  return true;
}

void Shares::leave(const std::string& supplier) {
  auto found = shares_.find(supplier);
  Share& share = found->second;
  if (share.waiting.empty()) {
    if (--share.busy == 0) shares_.erase(found);
    return;
  }
  // the turn goes from the one to the next
  auto next = std::move(share.waiting.front());
  share.waiting.pop_front();
  next();
}
