// What a map shows, wherever it is taken from.
#pragma once

#include <array>
#include <map>
#include <optional>
#include <set>
#include <string>
#include <tuple>

#include "changes.h"
#include "geometry.h"
#include "upstream.h"

enum class Kind { intent, constraint };
constexpr std::array<Kind, 2> kKinds = {Kind::intent, Kind::constraint};

// What is looked at: a second, or all from now on; and an altitude in decimetres, or all.
struct Moment {
  std::optional<long> at, altitude;

  bool is_all() const { return !at && !altitude; }
  bool operator<(const Moment& other) const { return std::tie(at, altitude) < std::tie(other.at, other.altitude); }
};

using References = std::map<std::string, json>;  // by their ids, as they are shown to everybody

// The letter of an item's name, and its kind: references by theirs, then subscriptions and suppliers.
constexpr std::array<std::pair<char, const char*>, 4> kItems = {{{'i', "intent"}, {'c', "constraint"}, {'s', "subscription"}, {'u', "supplier"}}};

// Tokens with blanks in between.
template <typename Set>
std::string words_of(const Set& cells) {
  std::string words;
  for (S2CellId it : cells) words += (words.empty() ? "" : " ") + it.ToToken();
  return words;
}

// Adds an item of a kind, by its id.
inline void add_item(std::map<std::string, std::string>& items, size_t kind, const std::string& id, json item) {
  item["kind"] = kItems[kind].second;
  items[kItems[kind].first + id] = item.dump(-1, ' ', false, json::error_handler_t::replace);
}

class Sight {
 public:
  struct Placed {
    json reference;                  // or subscription
    std::set<S2CellId> in, perhaps;  // cells that it is in, and more that it may be in: it is in no others
    bool is_there;                   // at the moment, somewhere in the area
  };
  struct Picture {
    std::array<std::map<std::string, Placed>, 2> placed;  // by kind and id
    std::optional<std::map<std::string, Placed>> subscriptions;
    std::map<std::string, std::string> suppliers;  // with their availability, where more are known than have references
    long asked;                                    // the second of the last whole answer; 0 before the first
    std::string fault;                             // why there was none since, where it is not empty
  };

  // Of the last whole answer: its second, or 0 before the first, and why there was none since, where it is not empty.
  struct State {
    long asked;
    std::string fault;
  };

  virtual ~Sight() = default;
  // What is known, as items for viewers: references, and subscriptions and suppliers where these are known.
  virtual State fill(Changes& changes) = 0;
  // Whether items have all their volumes, so that a viewer knows where they are at any moment.
  virtual bool is_whole() const = 0;
  // What is known, after a look where there was none for a while.
  virtual Picture picture(const Moment& moment) = 0;
  // What is in a cell at a moment, as the service answers now; a Refusal where it does not.
  virtual std::array<References, 2> in_cell(S2CellId cell, const Moment& moment) = 0;
  // Whether it may be asked for a cell.
  virtual bool may_be_asked(S2CellId cell) const = 0;
  // What is looked at; none where that is everything.
  virtual const Cells& area() const = 0;
};
