// The share that each supplier has in what is done at once. For one thread.
#pragma once

#include <deque>
#include <functional>
#include <map>
#include <string>

class Shares {
 public:
  // So many of a supplier at once, and so many more may wait.
  Shares(size_t at_once, size_t waiting) : at_once_(at_once), waiting_(waiting) {}

  // Has `turn` called when the supplier has room, at once or after others have left; false where too many wait already.
  bool enter(const std::string& supplier, std::function<void()> turn);
  // Ends a turn, once for each that was called.
  void leave(const std::string& supplier);

 private:
  struct Share {
    size_t busy = 0;
    std::deque<std::function<void()>> waiting;
  };
  size_t at_once_, waiting_;
  std::map<std::string, Share> shares_;
};
