#include "survey.h"

#include <algorithm>
#include <ctime>

#include "refusal.h"

namespace {

using std::chrono::milliseconds;
using std::chrono::seconds;

// Between two queries; between two looks at the whole area; after a fault; and how long the survey goes on when nobody asks.
constexpr milliseconds kBetween(125);
constexpr seconds kLook(3), kFault(2), kWatched(30);
// A picture waits so long for a look, where the last one was so long ago.
constexpr seconds kFirst(5), kOld(10);
// How long an answer for a moment stands for the next viewer, and how many are kept.
constexpr milliseconds kFresh(2500);
constexpr size_t kMoments = 64;
// A reference with more cells than this stays in coarser ones.
constexpr size_t kFine = 64;
// The most cells of a query that asks for several, the most references that they wait for, and how many are tried for it.
constexpr size_t kTogether = 64, kApart = 500, kTried = 400;
// What is shown of a reference, and nothing else: no OVN, which the map's own supplier would be shown of its own.
constexpr const char* kShown[] = {"id", "manager", "uss_availability", "version", "state", "time_start", "time_end", "uss_base_url", "subscription_id"};

const char* name_of(Kind kind) { return kind == Kind::intent ? "operational_intent_references" : "constraint_references"; }

json shown(const json& reference) {
  json it = json::object();
  for (const char* name : kShown)
    if (reference.contains(name)) it[name] = reference[name];
  return it;
}

// Of cells none of which is too large, parts that one query may ask for.
std::vector<Cells> parts_of(const Cells& cells) {
  std::vector<Cells> parts;
  for (S2CellId it : cells) {
    bool fits = !parts.empty() && parts.back().size() < size_t(kVolumeCells) && covered(parts.back()) + covered({it}) <= kCovered;
    if (!fits) parts.emplace_back();
    parts.back().push_back(it);
  }
  return parts;
}

}  // namespace

Survey::Survey(Service& service, std::string token, const Cells& area)
    : service_(service), token_(std::move(token)), area_(area), parts_(parts_of(area)), thread_([this] {
        while (wait()) step();
      }) {}

Survey::~Survey() {
  {
    std::lock_guard<std::mutex> lock(mutex_);
    is_ending_ = true;
  }
  wake_.notify_all();
  thread_.join();
}

// ---- asking

// Waits for its turn among all queries of the map.
References Survey::ask(Kind kind, const Cells& cells, const Moment& moment) {
  Clock::time_point turn;
  {
    std::lock_guard<std::mutex> lock(mutex_);
    turn = std::max(Clock::now(), next_turn_);
    next_turn_ = turn + kBetween;
  }
  std::this_thread::sleep_until(turn);
  json area = {{"cells", json::array()}};
  for (S2CellId it : cells) area["cells"].push_back(it.ToToken());
  area["time_start"] = moment.at ? *moment.at : long(std::time(nullptr));
  if (moment.at) area["time_end"] = *moment.at;
  if (moment.altitude) area["altitude_lower"] = area["altitude_upper"] = *moment.altitude;
  Answer answer = Upstream(service_, token_).ask("POST", std::string("/dss/v1/") + name_of(kind) + "/query", {{"area_of_interest", area}});
  if (!answer.is_done()) throw Refusal(502, std::string(name_of(kind)) + ": the service answers " + answer.body.value("message", "otherwise"));
  References found;
  for (const json& it : answer.body.at(name_of(kind))) found.emplace(it.at("id").get<std::string>(), shown(it));
  return found;
}

std::array<References, 2> Survey::in_cell(S2CellId cell, const Moment& moment) {
  std::array<References, 2> found;
  for (Kind kind : kKinds) found[size_t(kind)] = ask(kind, {cell}, moment);
  return found;
}

bool Survey::may_be_asked(S2CellId cell) const {
  return cell.level() <= kLevel && std::any_of(area_.begin(), area_.end(), [&](S2CellId it) { return it.contains(cell); });
}

Survey::There Survey::there(const Moment& moment) {
  There made{Clock::now(), {}};
  {
    std::lock_guard<std::mutex> lock(mutex_);
    auto kept = there_.find(moment);
    if (kept != there_.end() && Clock::now() - kept->second.asked < kFresh) return kept->second;
    if (there_.size() >= kMoments) there_.clear();
  }
  for (Kind kind : kKinds)
    for (const Cells& part : parts_)
      for (const auto& it : ask(kind, part, moment)) made.ids[size_t(kind)].insert(it.first);
  std::lock_guard<std::mutex> lock(mutex_);
  return there_[moment] = made;
}

Survey::Picture Survey::picture(const Moment& moment) {
  {
    std::unique_lock<std::mutex> lock(mutex_);
    last_viewer_ = Clock::now();
    wake_.notify_all();
    tried_.wait_for(lock, kFirst, [this] { return last_try_ != Clock::time_point() && Clock::now() - last_try_ < kOld; });
  }
  There at_moment;
  bool is_known = moment.is_all();
  try {
    if (!is_known) at_moment = there(moment);
    is_known = true;
  } catch (const std::exception& it) {
    fail(it.what());
  }
  std::lock_guard<std::mutex> lock(mutex_);
  Picture made{{}, {}, {}, asked_, fault_};
  for (Kind kind : kKinds)
    for (const auto& [id, it] : known_[size_t(kind)]) {
      bool is_there = moment.is_all() || !is_known || at_moment.ids[size_t(kind)].count(id);
      made.placed[size_t(kind)].emplace(id, Placed{it.reference, it.in, it.perhaps, is_there});
    }
  return made;
}

// ---- going on

void Survey::fail(const std::string& why) {
  std::lock_guard<std::mutex> lock(mutex_);
  fault_ = why;
  last_try_ = Clock::now();
  tried_.notify_all();
}

// Until something is to be asked; false at the end.
bool Survey::wait() {
  std::unique_lock<std::mutex> lock(mutex_);
  while (!is_ending_) {
    auto now = Clock::now();
    bool is_watched = last_viewer_ != Clock::time_point() && now - last_viewer_ < kWatched;
    if (is_watched && (now >= next_look_ || (fault_.empty() && !waiting_.empty()))) return true;
    if (is_watched)
      wake_.wait_until(lock, next_look_);
    else
      wake_.wait(lock);
  }
  return false;
}

void Survey::step() try {
  std::vector<Node> nodes;
  {
    std::lock_guard<std::mutex> lock(mutex_);
    if (Clock::now() < next_look_) nodes = next();
  }
  nodes.empty() ? look_at_all() : look_into(nodes);
} catch (const std::exception& it) {
  fail(it.what());
  std::lock_guard<std::mutex> lock(mutex_);
  next_look_ = Clock::now() + kFault;
}

void Survey::look_at_all() {
  std::array<References, 2> seen;
  std::array<std::map<std::string, Cells>, 2> where;
  for (Kind kind : kKinds)
    for (const Cells& part : parts_)
      for (auto& [id, reference] : ask(kind, part, {})) {
        Cells& cells = where[size_t(kind)][id];
        cells.insert(cells.end(), part.begin(), part.end());
        seen[size_t(kind)].emplace(id, std::move(reference));
      }
  std::lock_guard<std::mutex> lock(mutex_);
  for (Kind kind : kKinds) merge(kind, seen[size_t(kind)], where[size_t(kind)]);
  asked_ = std::time(nullptr);
  fault_.clear();
  last_try_ = Clock::now();
  next_look_ = last_try_ + kLook;
  tried_.notify_all();
}

// Who has changed is looked for anew: it may be elsewhere. Of its availability alone that is not so.
void Survey::merge(Kind kind, const References& seen, const std::map<std::string, Cells>& where) {
  auto& known = known_[size_t(kind)];
  for (auto it = known.begin(); it != known.end();) {
    std::string id = (it++)->first;
    if (!seen.count(id)) forget(kind, id);
  }
  for (const auto& [id, reference] : seen) {
    auto found = known.find(id);
    json before = found == known.end() ? json() : found->second.reference;
    if (before.is_object() && reference.contains("uss_availability")) before["uss_availability"] = reference["uss_availability"];
    if (before == reference) {
      found->second.reference = reference;
      continue;
    }
    if (found != known.end()) forget(kind, id);
    known[id].reference = reference;
    const Cells& cells = where.at(id);
    for (S2CellId it : cells) place(kind, id, it, cells.size() > 1);
  }
}

// A reference is in a cell, or may be: then, and in those inside of a cell that is to be split, it has yet to be asked for.
void Survey::place(Kind kind, const std::string& id, S2CellId cell, bool is_open) {
  Known& known = known_[size_t(kind)].at(id);
  auto wait_for = [&](S2CellId it) {
    known.perhaps.insert(it);
    waiting_[{it.level(), kind, it}].insert(id);
  };
  if (is_open) return wait_for(cell);
  bool is_fine = cell.level() >= kLevel || known.in.size() + known.perhaps.size() + 4 > kFine;
  if (is_fine) {
    known.in.insert(cell);
    return;
  }
  for (int k = 0; k < 4; k++) wait_for(cell.child(k));
}

void Survey::forget(Kind kind, const std::string& id) {
  auto& known = known_[size_t(kind)];
  for (S2CellId it : known.at(id).perhaps) {
    auto found = waiting_.find({it.level(), kind, it});
    found->second.erase(id);
    if (found->second.empty()) waiting_.erase(found);
  }
  known.erase(id);
}

bool Survey::Known::may_be_in(S2CellId cell) const {
  for (const auto* cells : {&in, &perhaps}) {
    auto inside = cells->lower_bound(cell.range_min());
    if (inside != cells->end() && *inside <= cell.range_max()) return true;
    for (int level = 0; level < cell.level(); level++)
      if (cells->count(cell.parent(level))) return true;
  }
  return false;
}

// Whether none of the references that wait for one cell may be in another.
bool Survey::may_go_with(const Node& node, const std::vector<Node>& nodes) const {
  Kind kind = std::get<Kind>(node);
  auto is_apart = [&](const Node& waited, const Node& other) {
    const auto& ids = waiting_.at(waited);
    return std::none_of(ids.begin(), ids.end(), [&](const std::string& id) { return known_[size_t(kind)].at(id).may_be_in(std::get<S2CellId>(other)); });
  };
  return std::all_of(nodes.begin(), nodes.end(), [&](const Node& it) { return std::get<Kind>(it) == kind && is_apart(it, node) && is_apart(node, it); });
}

// The cells to be asked for with the next query.
std::vector<Survey::Node> Survey::next() const {
  std::vector<Node> nodes;
  long cells = 0;
  size_t references = 0, tried = 0;
  for (const auto& [node, ids] : waiting_) {
    if (nodes.size() == kTogether || ++tried > kTried) break;
    long more = covered({std::get<S2CellId>(node)});
    bool is_little = nodes.empty() || (references + ids.size() <= kApart && cells + more <= kCovered);
    if (!is_little || !may_go_with(node, nodes)) continue;
    nodes.push_back(node);
    cells += more;
    references += ids.size();
  }
  return nodes;
}

void Survey::look_into(const std::vector<Node>& nodes) {
  Kind kind = std::get<Kind>(nodes[0]);
  Cells cells;
  for (const Node& it : nodes) cells.push_back(std::get<S2CellId>(it));
  References found = ask(kind, cells, {});
  std::lock_guard<std::mutex> lock(mutex_);
  for (const Node& node : nodes) {
    std::set<std::string> ids = std::move(waiting_.at(node));
    waiting_.erase(node);
    for (const std::string& id : ids) {
      S2CellId cell = std::get<S2CellId>(node);
      known_[size_t(kind)].at(id).perhaps.erase(cell);
      if (found.count(id)) place(kind, id, cell, false);
    }
  }
}

Sight::State Survey::fill(Changes& changes) {
  Picture made = picture({});
  std::map<std::string, std::string> items;
  for (size_t kind = 0; kind < made.placed.size(); kind++)
    for (const auto& [id, it] : made.placed[kind]) {
      json item = it.reference;
      item["in"] = words_of(it.in);
      item["perhaps"] = words_of(it.perhaps);
      add_item(items, kind, id, item);
    }
  changes.take(std::move(items));
  return {made.asked, made.fault};
}
