#include "whole.h"

#include <algorithm>
#include <ctime>

#include "refusal.h"

namespace {

// What was read stands so long for the next viewer.
constexpr std::chrono::milliseconds kFresh(2500);
// How often it is read anew where the airspace changed between two of its pages, and the most references of all pages.
constexpr int kTries = 3;
constexpr size_t kMost = 20000;
constexpr const char* kNames[] = {"operational_intent_reference", "constraint_reference"};

}  // namespace

// ---- what is read

Whole::Volume Whole::volume_of(const json& volume) {
  Volume made{{}, volume.at("altitude_lower"), volume.at("altitude_upper"), volume.at("time_start"), volume.at("time_end")};
  for (const json& it : volume.at("cells")) made.cells.push_back(S2CellId::FromToken(it.get<std::string>()));
  return made;
}

void Whole::take(const json& page, Read& read) {
  for (const json& it : page.at("entities"))
    for (Kind kind : kKinds)
      if (auto reference = it.find(kNames[size_t(kind)]); reference != it.end()) {
        Thing& thing = read.things[size_t(kind)][reference->at("id")];
        thing.shown = *reference;
        for (const json& volume : it.at("extents")) thing.volumes.push_back(volume_of(volume));
      }
  for (const json& it : page.at("subscriptions")) {
    Thing& thing = read.subscriptions[it.at("id")];
    thing.shown = it;
    thing.shown.erase("extents");
    thing.volumes.push_back(volume_of(it.at("extents")));
  }
  if (auto it = page.find("suppliers"); it != page.end())
    for (const auto& [uss, availability] : it->items()) read.suppliers[uss] = availability;
}

std::optional<Whole::Read> Whole::read_once(const Read* before) const {
  Read read{{}, {}, {}, -1, true, false};
  std::string next;
  do {
    json page = read_operators(place_, "/airspace" + (next.empty() ? "" : "?after=" + next));
    long serial = page.at("serial");
    if (before && before->is_one && serial == before->serial) return std::nullopt;
    before = nullptr;
    read.is_one = read.is_one && (read.serial < 0 || read.serial == serial);
    read.serial = serial;
    take(page, read);
    next = page.value("next", "");
    read.has_more = !next.empty() && read.things[0].size() + read.things[1].size() >= kMost;
  } while (!next.empty() && !read.has_more);
  return read;
}

std::shared_ptr<const Whole::Read> Whole::latest(State& state) {
  std::lock_guard<std::mutex> lock(mutex_);
  if (last_try_ == Clock::time_point() || Clock::now() - last_try_ >= kFresh) try {
      long asked = std::time(nullptr);
      auto read = read_once(read_.get());
      for (int k = 1; k < kTries && read && !read->is_one; k++) read = read_once(nullptr);
      if (read) read_ = std::make_shared<const Read>(std::move(*read));
      state_ = {asked, read_->has_more ? "over " + std::to_string(kMost) + " references: the first of them are shown" : ""};
      last_try_ = Clock::now();
    } catch (const json::exception&) {
      state_.fault = "the service's answer has not its form";
      last_try_ = Clock::now();
    } catch (const std::exception& it) {
      state_.fault = it.what();
      last_try_ = Clock::now();
    }
  state = state_;
  return read_;
}

// ---- what is shown of it

bool Whole::Volume::is_there(const Moment& moment, long now) const {
  bool is_then = moment.at ? start <= *moment.at && *moment.at <= end : now <= end;
  return is_then && (!moment.altitude || (lower <= *moment.altitude && *moment.altitude <= upper));
}

bool Whole::Thing::is_in(S2CellId cell, const Moment& moment, long now) const {
  auto meets = [&](S2CellId it) { return it.intersects(cell); };
  return std::any_of(volumes.begin(), volumes.end(), [&](const Volume& it) {
    return it.is_there(moment, now) && std::any_of(it.cells.begin(), it.cells.end(), meets);
  });
}

// None where it has ended. Where it is not there at the moment, all its cells are those that it has at other times.
std::optional<Sight::Placed> Whole::Thing::placed(const Moment& moment, long now) const {
  Placed made{shown, {}, {}, false};
  for (const Volume& it : volumes)
    if (it.is_there(moment, now)) made.in.insert(it.cells.begin(), it.cells.end());
  made.is_there = !made.in.empty();
  if (made.is_there) return made;
  for (const Volume& it : volumes)
    if (now <= it.end) made.in.insert(it.cells.begin(), it.cells.end());
  return made.in.empty() ? std::nullopt : std::make_optional(made);
}

std::optional<json> Whole::Thing::item(long now) const {
  json made = shown, &listed = made["volumes"] = json::array();
  for (const Volume& it : volumes)
    if (now <= it.end) listed.push_back({{"cells", words_of(it.cells)}, {"lower", it.lower}, {"upper", it.upper}, {"start", it.start}, {"end", it.end}});
  return listed.empty() ? std::nullopt : std::make_optional(made);
}

Sight::State Whole::fill(Changes& changes) {
  State state{};
  auto read = latest(state);
  if (!read || read == filled_) return state;
  std::map<std::string, std::string> items;
  auto suppliers = read->suppliers;
  long now = std::time(nullptr);
  size_t kind = 0;
  for (const auto* things : {&read->things[0], &read->things[1], &read->subscriptions}) {
    for (const auto& [id, it] : *things) {
      suppliers[it.shown.at("manager")] = it.shown.at("uss_availability");
      if (auto item = it.item(now)) add_item(items, kind, id, *item);
    }
    kind++;
  }
  for (const auto& [uss, availability] : suppliers) add_item(items, kind, uss, {{"id", uss}, {"uss_availability", availability}});
  changes.take(std::move(items));
  filled_ = read;
  return state;
}

Sight::Picture Whole::picture(const Moment& moment) {
  Picture made{};
  State state{};
  auto read = latest(state);
  made.fault = state.fault;
  made.asked = state.asked;
  if (!read) return made;
  made.subscriptions.emplace();
  made.suppliers = read->suppliers;
  long now = std::time(nullptr);
  auto show = [&](const std::map<std::string, Thing>& things, std::map<std::string, Placed>& placed) {
    for (const auto& [id, it] : things) {
      made.suppliers[it.shown.at("manager")] = it.shown.at("uss_availability");
      if (auto one = it.placed(moment, now)) placed.emplace(id, std::move(*one));
    }
  };
  for (Kind kind : kKinds) show(read->things[size_t(kind)], made.placed[size_t(kind)]);
  show(read->subscriptions, *made.subscriptions);
  return made;
}

std::array<References, 2> Whole::in_cell(S2CellId cell, const Moment& moment) {
  State state{};
  auto read = latest(state);
  if (!read) throw Refusal(502, state.fault);
  std::array<References, 2> found;
  long now = std::time(nullptr);
  for (Kind kind : kKinds)
    for (const auto& [id, it] : read->things[size_t(kind)])
      if (it.is_in(cell, moment, now)) found[size_t(kind)].emplace(id, it.shown);
  return found;
}
