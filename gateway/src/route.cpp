#include "route.h"

#include <vector>

#include "refusal.h"
#include "translate.h"

std::optional<Route> route_of(const std::string& target) {
  static const std::string kFront = "/dss/v1/";
  std::string path = target.substr(0, target.find('?'));
  if (path.compare(0, kFront.size(), kFront) != 0) return std::nullopt;
  std::vector<std::string> words;
  for (size_t from = kFront.size(), to = 0; to != std::string::npos; from = to + 1) {
    to = path.find('/', from);
    words.push_back(path.substr(from, to - from));
    if (words.back().empty() || words.size() > 3) return std::nullopt;
  }
  if (words.size() < 2) return std::nullopt;
  Route route{words[0], words[1], std::nullopt};
  if (words.size() == 3) route.version = words[2];
  bool has_versions = route.kind == "operational_intent_references" || route.kind == "constraint_references" || route.kind == "subscriptions";
  if (!has_versions && route.kind != "uss_availability") return std::nullopt;
  if (route.version && (!has_versions || route.is_query())) return std::nullopt;
  return route;
}

std::string Route::methods() const { return is_query() ? "POST" : version ? "PUT, DELETE" : "GET, PUT"; }

void Route::check_words() const {
  if (kind == "uss_availability" && !is_uss(word)) throw Refusal(400, "the path has no id of a supplier: 1 to 64 letters, digits, -, _ and .");
  if (kind != "uss_availability" && !is_query() && !is_uuid(word)) throw Refusal(400, "the path has no UUID after " + kind);
  if (version && !is_ovn(*version)) throw Refusal(400, "the path has no OVN or version at its end: 16 to 128 visible ASCII characters");
}
