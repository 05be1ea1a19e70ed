// Where the references of the service are. Its answers have no cells, so it is asked for an area as a whole, and then again for the
// cells inside where something is: coarse ones first, and never more than a few queries a second. One query asks for several cells
// where no reference may be in two of them, so that the answer tells for each where it is.
#pragma once

#include <array>
#include <chrono>
#include <condition_variable>
#include <map>
#include <mutex>
#include <set>
#include <string>
#include <thread>
#include <tuple>
#include <vector>

#include "sight.h"

class Survey : public Sight {
 public:
  // Over an area, by a token of the service.
  Survey(Service& service, std::string token, const Cells& area);
  ~Survey() override;

  // What is known, after a look at the whole area where there was none for a while. The survey goes on as long as somebody asks for
  // pictures.
  Picture picture(const Moment& moment) override;
  State fill(Changes& changes) override;
  bool is_whole() const override { return false; }
  std::array<References, 2> in_cell(S2CellId cell, const Moment& moment) override;

  bool may_be_asked(S2CellId cell) const override;
  const Cells& area() const override { return area_; }

 private:
  using Clock = std::chrono::steady_clock;
  using Node = std::tuple<int, Kind, S2CellId>;  // the coarse ones first
  struct Known {
    json reference;
    std::set<S2CellId> in, perhaps;

    bool may_be_in(S2CellId cell) const;
  };
  struct There {
    Clock::time_point asked;
    std::array<std::set<std::string>, 2> ids;
  };

  bool wait();
  void step();
  void look_at_all();
  std::vector<Node> next() const;
  bool may_go_with(const Node& node, const std::vector<Node>& nodes) const;
  void look_into(const std::vector<Node>& nodes);
  References ask(Kind kind, const Cells& cells, const Moment& moment);
  There there(const Moment& moment);
  void merge(Kind kind, const References& seen, const std::map<std::string, Cells>& where);
  void place(Kind kind, const std::string& id, S2CellId cell, bool is_open);
  void forget(Kind kind, const std::string& id);
  void fail(const std::string& why);

  Service& service_;
  std::string token_;
  Cells area_;
  std::vector<Cells> parts_;  // of the area, each as large as one query may be

  std::mutex mutex_;  // of all below
  std::condition_variable wake_, tried_;
  std::array<std::map<std::string, Known>, 2> known_;
  std::map<Node, std::set<std::string>> waiting_;  // cells that are yet to be asked for, and for which references
  std::map<Moment, There> there_;
  Clock::time_point next_look_, next_turn_, last_viewer_, last_try_;
  long asked_ = 0;
  std::string fault_;
  bool is_ending_ = false;
  std::thread thread_;
};
