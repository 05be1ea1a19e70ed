#include "ground.h"

#include <algorithm>
#include <cmath>
#include <map>
#include <stdexcept>

#include <nlohmann/json.hpp>

using json = nlohmann::json;

namespace {

// The most bytes of the file.
constexpr size_t kGround = 8 << 20;

bool is_position(const json& it) {
  auto is_degree = [&](size_t k, double most) { return it[k].is_number() && std::abs(it[k].get<double>()) <= most; };
  return it.is_array() && it.size() >= 2 && is_degree(0, 180) && is_degree(1, 90);
}

// Whether it is a position, or lists of them to a depth.
bool is_nested(const json& it, int depth) {
  if (depth == 0) return is_position(it);
  return it.is_array() && std::all_of(it.begin(), it.end(), [&](const json& one) { return is_nested(one, depth - 1); });
}

bool is_geometry(const json& it, int depth = 0) {
  static const std::map<std::string, int> depths = {{"Point", 0},           {"MultiPoint", 1}, {"LineString", 1},
                                                    {"MultiLineString", 2}, {"Polygon", 2},    {"MultiPolygon", 3}};
  if (it.is_null()) return true;
  if (!it.is_object() || !it.contains("type") || !it["type"].is_string()) return false;
  std::string type = it["type"];
  auto is_one = [&](const json& one) { return is_geometry(one, depth + 1); };
  if (type == "GeometryCollection")
    return depth < 8 && it.contains("geometries") && it["geometries"].is_array() && std::all_of(it["geometries"].begin(), it["geometries"].end(), is_one);
  return depths.count(type) && it.contains("coordinates") && is_nested(it["coordinates"], depths.at(type));
}

bool is_feature(const json& it) { return it.is_object() && it.value("type", json()) == "Feature" && it.contains("geometry") && is_geometry(it["geometry"]); }

}  // namespace

std::string ground_of(const std::string& text, const std::string& file) {
  if (text.size() > kGround) throw std::runtime_error(file + ": has over 8 MiB; simplify it");
  json ground = json::parse(text, nullptr, false);
  bool is_object = ground.is_object() && ground.contains("type") && ground["type"].is_string();
  bool is_collection = is_object && ground["type"] == "FeatureCollection" && ground.contains("features") && ground["features"].is_array();
  bool is_taken = is_collection ? std::all_of(ground["features"].begin(), ground["features"].end(), is_feature)
                                : is_object && !ground["type"].get<std::string>().empty() && (is_feature(ground) || is_geometry(ground));
  if (!is_taken) throw std::runtime_error(file + ": is no GeoJSON in degrees of WGS84 (RFC 7946); see gateway/MAP.md");
  return ground.dump(-1, ' ', false, json::error_handler_t::replace);
}
