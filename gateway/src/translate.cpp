#include "translate.h"

#include <algorithm>
#include <ctime>
#include <map>
#include <tuple>

#include "geometry.h"
#include "member.h"
#include "refusal.h"

namespace {

// The service's limits: decimetres, seconds, and numbers of items.
constexpr long kLowest = -100'000, kHighest = 1'000'000;
constexpr long kLastSecond = 253'402'300'799;
constexpr long kDay = 86'400;
constexpr size_t kVolumes = 32, kVolumesGiven = 256, kCorners = 50'000, kKey = 4096, kBaseUrl = 255, kOldVersion = 128;
constexpr size_t kDepth = 64, kValues = 100'000;

enum class Rounding { down, up };

// Builds the value of a text that is read, of limited depth and of so many values: each takes many times the bytes of its text.
class Reader : public nlohmann::json_sax<json> {
 public:
  json value;
  size_t count = 0;

  bool null() override { return put(nullptr); }
  bool boolean(bool it) override { return put(it); }
  bool number_integer(number_integer_t it) override { return put(it); }
  bool number_unsigned(number_unsigned_t it) override { return put(it); }
  bool number_float(number_float_t, const string_t& text) override {
    return put(json::binary(std::vector<uint8_t>(text.begin(), text.end())));
  }
  bool string(string_t& it) override { return put(std::move(it)); }
  bool binary(binary_t&) override { return false; }
  bool key(string_t& it) override {
    name_ = std::move(it);
    return true;
  }
  bool start_object(size_t) override { return open(json::object()); }
  bool start_array(size_t) override { return open(json::array()); }
  bool end_object() override { return close(); }
  bool end_array() override { return close(); }
  bool parse_error(size_t, const std::string&, const nlohmann::detail::exception&) override { return false; }

 private:
  // Only the last of those open grows, so that the others stay where they are.
  json& place(json it) {
    count++;
    if (open_.empty()) return value = std::move(it);
    if (open_.back()->is_array()) return open_.back()->emplace_back(std::move(it));
    return (*open_.back())[name_] = std::move(it);
  }
  bool put(json it) {
    place(std::move(it));
    return count <= kValues;
  }
  bool open(json it) {
    if (open_.size() == kDepth) return false;
    open_.push_back(&place(std::move(it)));
    return count <= kValues;
  }
  bool close() {
    open_.pop_back();
    return true;
  }
  std::vector<json*> open_;
  string_t name_;
};

// Ten times a number's text, rounded. Exact: the digits stay text, and what stands behind the point decides.
std::optional<long> decimetres(const std::string& text, Rounding rounding) {
  bool is_negative = text[0] == '-';
  size_t exponent_at = std::min(text.find_first_of("eE"), text.size());
  std::string digits = text.substr(is_negative, exponent_at - is_negative);
  constexpr long kFar = 10'000'000;  // beyond any text's length
  long point = exponent_at == text.size() ? 0 : std::clamp(std::strtol(text.c_str() + exponent_at + 1, nullptr, 10), -kFar, kFar);
  size_t dot = std::min(digits.find('.'), digits.size());
  point += long(dot) + 1;  // the first digits so many are whole decimetres
  if (dot != digits.size()) digits.erase(dot, 1);
  size_t zeros = std::min(digits.find_first_not_of('0'), digits.size());
  digits.erase(0, zeros);
  point -= long(zeros);
  if (digits.empty()) return 0;
  if (point > 7) return std::nullopt;  // ten times what the service takes, and more
  std::string whole = point > 0 ? digits.substr(0, point) : "0";
  if (point > long(whole.size())) whole.append(point - whole.size(), '0');
  bool has_rest = point < long(digits.size()) && digits.find_first_not_of('0', std::max(point, 0L)) != std::string::npos;
  long value = std::stol(whole) + (has_rest && (rounding == Rounding::up) != is_negative);
  return is_negative ? -value : value;
}

// Whether a text has the form, in which `d` stands for a digit and `T` and `Z` for either case.
bool has_form(const std::string& text, const char* form) {
  auto fits = [](char it, char form) { return form == 'd' ? it >= '0' && it <= '9' : it == form || (form == 'T' && it == 't'); };
  return text.size() == std::string(form).size() && std::equal(text.begin(), text.end(), form, fits);
}

// The second of a time of RFC 3339 with any offset, rounded. A leap second counts as a part of the second before it.
std::optional<long> seconds(const std::string& text, Rounding rounding) {
  if (text.size() < 20 || !has_form(text.substr(0, 19), "dddd-dd-ddTdd:dd:dd")) return std::nullopt;
  auto number = [&](size_t from, size_t count) { return std::stoi(text.substr(from, count)); };
  bool is_leap = number(17, 2) == 60, has_rest = is_leap;
  std::tm given{};
  given.tm_year = number(0, 4) - 1900, given.tm_mon = number(5, 2) - 1, given.tm_mday = number(8, 2);
  given.tm_hour = number(11, 2), given.tm_min = number(14, 2), given.tm_sec = is_leap ? 59 : number(17, 2);
  std::tm kept = given;
  long value = timegm(&kept);  // which carries over what is no date
  auto parts = [](const std::tm& it) { return std::tie(it.tm_year, it.tm_mon, it.tm_mday, it.tm_hour, it.tm_min, it.tm_sec); };
  if (parts(given) != parts(kept)) return std::nullopt;
  size_t zone_at = 19;
  if (text[zone_at] == '.') {
    zone_at = std::min(text.find_first_not_of("0123456789", 20), text.size());
    if (zone_at == 20) return std::nullopt;
    has_rest |= text.find_first_not_of('0', 20) < zone_at;
  }
  std::string zone = text.substr(zone_at);
  if (has_form(zone, "+dd:dd") || has_form(zone, "-dd:dd")) {
    int hours = number(zone_at + 1, 2), minutes = number(zone_at + 4, 2);
    if (hours > 23 || minutes > 59) return std::nullopt;
    value -= (zone[0] == '-' ? -1 : 1) * (hours * 3600L + minutes * 60L);
  } else if (zone != "Z" && zone != "z") {
    return std::nullopt;
  }
  return value + (has_rest && rounding == Rounding::up);
}

std::string rfc3339(std::time_t second) {
  std::tm parts{};
  gmtime_r(&second, &parts);
  char text[40];
  return {text, std::strftime(text, sizeof text, "%Y-%m-%dT%H:%M:%SZ", &parts)};
}

bool is_visible(const std::string& text, size_t least, size_t most) {
  return text.size() >= least && text.size() <= most &&
         std::all_of(text.begin(), text.end(), [](char it) { return it >= '!' && it <= '~'; });
}

// The four bounds of an extent, each where it is given.
struct Bounds {
  std::optional<long> altitude_lower, altitude_upper, time_start, time_end;

  auto parts() const { return std::tie(altitude_lower, altitude_upper, time_start, time_end); }
  bool operator<(const Bounds& other) const { return parts() < other.parts(); }

  json with_cells(const Cells& cells) const {
    json extent;
    for (S2CellId it : cells) extent["cells"].push_back(it.ToToken());
    if (altitude_lower) extent["altitude_lower"] = *altitude_lower;
    if (altitude_upper) extent["altitude_upper"] = *altitude_upper;
    if (time_start) extent["time_start"] = *time_start;
    if (time_end) extent["time_end"] = *time_end;
    return extent;
  }
};

std::optional<long> altitude_of(const Member& altitude, Rounding rounding) {
  if (altitude.is_absent()) return std::nullopt;
  altitude["reference"].must_be("W84");
  altitude["units"].must_be("M");
  auto value = decimetres(altitude["value"].decimal(), rounding);
  if (!value || *value < kLowest || *value > kHighest) altitude["value"].refuse("must be from -10,000 to 100,000 metres");
  return value;
}

std::optional<long> time_of(const Member& time, Rounding rounding) {
  if (time.is_absent()) return std::nullopt;
  time["format"].must_be("RFC3339");
  auto value = seconds(time["value"].text(), rounding);
  if (!value) time["value"].refuse("must be a time of RFC 3339, such as 2026-01-31T12:00:00.5Z");
  return value;
}

Bounds bounds_of(const Member& extent) {
  Member volume = extent["volume"];
  Bounds bounds{altitude_of(volume["altitude_lower"], Rounding::down), altitude_of(volume["altitude_upper"], Rounding::up),
                time_of(extent["time_start"], Rounding::down), time_of(extent["time_end"], Rounding::up)};
  if (bounds.altitude_lower && bounds.altitude_upper && *bounds.altitude_lower > *bounds.altitude_upper)
    volume["altitude_lower"].refuse("is above altitude_upper");
  if (bounds.time_start && bounds.time_end && *bounds.time_start > *bounds.time_end)
    extent["time_start"].refuse("is after time_end");
  return bounds;
}

// No bound means every altitude, and the service knows of none beyond these.
void fill_altitudes(Bounds& bounds) {
  bounds.altitude_lower = bounds.altitude_lower.value_or(kLowest);
  bounds.altitude_upper = bounds.altitude_upper.value_or(kHighest);
}

void must_be_kept(const Member& time, long second) {
  if (second < 0 || second > kLastSecond) time.refuse("must be from 1970 to 9999");
}

LatLng lat_lng_of(const Member& point) { return {point["lat"].real(), point["lng"].real()}; }

std::vector<LatLng> corners_of(const Member& polygon) {
  std::vector<LatLng> corners;
  for (const Member& it : polygon["vertices"].items(0, kCorners)) corners.push_back(lat_lng_of(it));
  return corners;
}

Outline outline_of(const Member& volume) {
  Member polygon = volume["outline_polygon"], circle = volume["outline_circle"];
  if (polygon.is_absent() == circle.is_absent()) volume.refuse("must have one of outline_polygon and outline_circle");
  try {
    if (!polygon.is_absent()) return Outline::polygon(corners_of(polygon));
    circle["radius"]["units"].must_be("M");
    return Outline::circle(lat_lng_of(circle["center"]), circle["radius"]["value"].real());
  } catch (const GeometryRefusal& it) {
    (polygon.is_absent() ? circle : polygon).refuse(std::string("is refused: ") + it.what(), it.status);
  }
}

// Volumes of a put, each with its covering; over 32 of them, those with the same four bounds become one.
json volumes_of(const Member& extents, const Budget& budget) {
  std::vector<Bounds> bounds;
  std::vector<Outline> outlines;
  for (const Member& it : extents.items(1, kVolumesGiven)) {
    bounds.push_back(bounds_of(it));
    fill_altitudes(bounds.back());
    for (const char* name : {"time_start", "time_end"})
      if (it[name].is_absent()) it[name].refuse("is needed");
    must_be_kept(it["time_start"], *bounds.back().time_start);
    must_be_kept(it["time_end"], *bounds.back().time_end);
    outlines.push_back(outline_of(it["volume"]));
    budget.check();
  }
  std::vector<Cells> cells = coverings(outlines, budget);
  json volumes = json::array();
  if (outlines.size() <= kVolumes) {
    for (size_t k = 0; k < outlines.size(); k++) volumes.push_back(bounds[k].with_cells(cells[k]));
    return volumes;
  }
  std::map<Bounds, Cells> merged;
  for (size_t k = 0; k < outlines.size(); k++) {
    Cells& all = merged[bounds[k]];
    all.insert(all.end(), cells[k].begin(), cells[k].end());
  }
  for (auto& [each, all] : merged) {
    Cells once = coarsened(std::move(all), kRequestCells);
    for (size_t from = 0; from < once.size(); from += kVolumeCells) {
      size_t to = std::min(once.size(), from + kVolumeCells);
      volumes.push_back(each.with_cells(Cells(once.begin() + long(from), once.begin() + long(to))));
    }
  }
  if (volumes.size() > kVolumes) extents.refuse("has over 32 volumes of different altitudes or times: send fewer, longer ones", 413);
  return volumes;
}

std::string base_url_of(const Member& url) {
  std::string text = url.text();
  if (!is_visible(text, 1, kBaseUrl)) url.refuse("must have 1 to 255 visible ASCII characters");
  return text;
}

}  // namespace

bool is_uuid(const std::string& text) {
  for (size_t k = 0; k < text.size(); k++)
    if (k == 8 || k == 13 || k == 18 || k == 23 ? text[k] != '-' : !std::isxdigit(static_cast<unsigned char>(text[k]))) return false;
  return text.size() == 36;
}

std::string lower_case(std::string text) {
  std::transform(text.begin(), text.end(), text.begin(), [](unsigned char it) { return char(std::tolower(it)); });
  return text;
}

bool is_ovn(const std::string& text) { return is_visible(text, 16, 128) && text.find('/') == std::string::npos; }

bool is_uss(const std::string& text) {
  auto fits = [](unsigned char it) { return std::isalnum(it) || it == '-' || it == '_' || it == '.'; };
  return !text.empty() && text.size() <= 64 && std::all_of(text.begin(), text.end(), fits);
}

json read_json(const std::string& text) {
  Reader reader;
  bool is_read = json::sax_parse(text, &reader);
  if (reader.count > kValues) throw Refusal(413, "the body has over 100,000 values: send fewer volumes with fewer vertices");
  if (!is_read || !reader.value.is_object()) throw Refusal(400, "the body is no JSON object of at most 64 levels");
  return std::move(reader.value);
}

json query_for_service(const json& body, const Budget& budget) {
  Member area = Member(body)["area_of_interest"];
  Bounds bounds = bounds_of(area);
  for (auto* time : {&bounds.time_start, &bounds.time_end})
    if (*time) *time = std::clamp(**time, 0L, kLastSecond);  // what is kept lies within
  std::vector<Outline> outline;
  outline.push_back(outline_of(area["volume"]));
  return {{"area_of_interest", bounds.with_cells(coverings(outline, budget)[0])}};
}

json constraint_for_service(const json& body, const Budget& budget) {
  Member given(body);
  return {{"extents", volumes_of(given["extents"], budget)}, {"uss_base_url", base_url_of(given["uss_base_url"])}};
}

IntentPut intent_for_service(const json& body, const Budget& budget) {
  Member given(body);
  IntentPut put{constraint_for_service(body, budget), std::nullopt};
  std::string state = given["state"].text();
  if (state != "Accepted" && state != "Activated" && state != "Nonconforming" && state != "Contingent")
    given["state"].refuse("must be Accepted, Activated, Nonconforming or Contingent");
  put.body["state"] = state;
  put.body["key"] = json::array();
  if (Member key = given["key"]; !key.is_absent())
    for (const Member& it : key.items(0, kKey)) {
      if (!is_visible(it.text(), 16, 128)) it.refuse("must be an OVN, 16 to 128 visible ASCII characters");
      put.body["key"].push_back(it.text());
    }
  if (Member suffix = given["requested_ovn_suffix"]; !suffix.is_absent())
    suffix.refuse("is not taken: leave it out, and use the OVN of the response");
  Member named = given["subscription_id"], wanted = given["new_subscription"];
  if (!named.is_absent()) {
    if (!is_uuid(named.text())) named.refuse("must be a UUID");
    put.body["subscription_id"] = lower_case(named.text());
  } else if (!wanted.is_absent()) {
    put.wanted = {base_url_of(wanted["uss_base_url"]), wanted["notify_for_constraints"].truth()};
  }
  return put;
}

json subscription_over(const json& extents, const WantedSubscription& wanted) {
  json hull = extents.at(0);
  Cells cells;
  for (const json& it : extents) {
    for (const json& token : it.at("cells")) cells.push_back(S2CellId::FromToken(token.get<std::string>()));
    for (const char* name : {"altitude_lower", "time_start"}) hull[name] = std::min(hull[name], it.at(name));
    for (const char* name : {"altitude_upper", "time_end"}) hull[name] = std::max(hull[name], it.at(name));
  }
  cells = coarsened(std::move(cells), kVolumeCells);
  if (covered(cells) > kCovered)
    throw Refusal(413, "new_subscription is too large for volumes as far apart as these: put subscriptions, and name one by subscription_id");
  hull["cells"] = json::array();
  for (S2CellId it : cells) hull["cells"].push_back(it.ToToken());
  return {{"extents", hull},
          {"uss_base_url", wanted.uss_base_url},
          {"notify_for_operational_intents", true},
          {"notify_for_constraints", wanted.for_constraints}};
}

json subscription_for_service(const json& body, long now, const Budget& budget) {
  Member given(body), extent = given["extents"];
  Bounds bounds = bounds_of(extent);
  fill_altitudes(bounds);
  bounds.time_start = bounds.time_start.value_or(bounds.time_end ? std::min(now, *bounds.time_end) : now);
  bounds.time_end = bounds.time_end.value_or(*bounds.time_start + kDay);
  must_be_kept(extent["time_start"], *bounds.time_start);
  must_be_kept(extent["time_end"], *bounds.time_end);
  // both were rounded outwards
  if (*bounds.time_end - *bounds.time_start > kDay + 1)
    extent["time_end"].refuse("is over 24 hours after time_start: put a shorter subscription, and update it before it ends");
  std::vector<Outline> outline;
  outline.push_back(outline_of(extent["volume"]));
  bool for_intents = given["notify_for_operational_intents"].truth(), for_constraints = given["notify_for_constraints"].truth();
  if (!for_intents && !for_constraints) throw Refusal(400, "one of notify_for_operational_intents and notify_for_constraints must be true");
  return {{"extents", bounds.with_cells(coverings(outline, budget)[0])},
          {"uss_base_url", base_url_of(given["uss_base_url"])},
          {"notify_for_operational_intents", for_intents},
          {"notify_for_constraints", for_constraints}};
}

json availability_for_service(const json& body) {
  Member given(body), old_version = given["old_version"];
  std::string availability = given["availability"].text(), old = old_version.is_absent() ? "" : old_version.text();
  if (availability != "Unknown" && availability != "Normal" && availability != "Down")
    given["availability"].refuse("must be Unknown, Normal or Down");
  if (old.size() > kOldVersion) old_version.refuse("has over 128 bytes");
  return {{"availability", availability}, {"old_version", old}};
}

json answer_for_supplier(json answer) {
  auto write_times = [](json& it) {
    if (!it.is_object()) return;
    for (const char* name : {"time_start", "time_end"})
      if (auto found = it.find(name); found != it.end() && found->is_number_integer())
        *found = {{"value", rfc3339(found->get<long>())}, {"format", "RFC3339"}};
  };
  for (json& member : answer) {
    write_times(member);
    if (member.is_array()) std::for_each(member.begin(), member.end(), write_times);
  }
  return answer;
}
