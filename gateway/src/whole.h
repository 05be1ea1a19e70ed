// The airspace as a whole, as the service shows it to its operators: with all cells of each reference, and with the subscriptions.
#pragma once

#include <chrono>
#include <memory>
#include <mutex>
#include <string>
#include <vector>

#include "sight.h"

class Whole : public Sight {
 public:
  // From the operator's port of this machine. An area is what is looked at first; nothing is left out for it.
  Whole(const Place& place, const Cells& area) : place_(place), area_(area) {}

  Picture picture(const Moment& moment) override;
  State fill(Changes& changes) override;
  bool is_whole() const override { return true; }
  std::array<References, 2> in_cell(S2CellId cell, const Moment& moment) override;
  bool may_be_asked(S2CellId) const override { return true; }
  const Cells& area() const override { return area_; }

 private:
  using Clock = std::chrono::steady_clock;
  struct Volume {
    Cells cells;
    long lower, upper, start, end;

    bool is_there(const Moment& moment, long now) const;
  };
  struct Thing {
    json shown;
    std::vector<Volume> volumes;

    bool is_in(S2CellId cell, const Moment& moment, long now) const;
    std::optional<Placed> placed(const Moment& moment, long now) const;
    // With its volumes that have not ended; none where it has.
    std::optional<json> item(long now) const;
  };
  struct Read {
    std::array<std::map<std::string, Thing>, 2> things;
    std::map<std::string, Thing> subscriptions;
    std::map<std::string, std::string> suppliers;
    long serial;
    bool is_one, has_more;
  };

  static Volume volume_of(const json& volume);
  static void take(const json& page, Read& read);
  // None where nothing has changed since the one that was read before.
  std::optional<Read> read_once(const Read* before) const;
  // What was read last, anew where that was a while ago; none before the first that was read.
  std::shared_ptr<const Read> latest(State& state);

  Place place_;
  Cells area_;
  std::mutex mutex_;  // of all below
  std::shared_ptr<const Read> read_;
  Clock::time_point last_try_;
  State state_ = {};
  std::shared_ptr<const Read> filled_;  // of one thread at a time, which fills
};
