// Lets only one at a time do something of the same name.
#pragma once

#include <condition_variable>
#include <mutex>
#include <set>
#include <string>

class Turns {
 public:
  class Turn {
   public:
    // Waits until no other of this name is there.
    Turn(Turns& turns, std::string name) : turns_(turns), name_(std::move(name)) {
      std::unique_lock<std::mutex> lock(turns_.mutex_);
      turns_.left_.wait(lock, [this] { return turns_.names_.insert(name_).second; });
    }
    ~Turn() {
      std::lock_guard<std::mutex> lock(turns_.mutex_);
      turns_.names_.erase(name_);
      turns_.left_.notify_all();
    }
    Turn(const Turn&) = delete;

   private:
    Turns& turns_;
    std::string name_;
  };

 private:
  std::mutex mutex_;
  std::condition_variable left_;
  std::set<std::string> names_;
};
