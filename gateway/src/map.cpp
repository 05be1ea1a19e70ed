#include "map.h"

#include <algorithm>
#include <cmath>
#include <ctime>
#include <sstream>

#include <openssl/crypto.h>
#include <openssl/rand.h>
#include <strings.h>
#include <zlib.h>

#include "ground.h"
#include "page.h"
#include "refusal.h"
#include "survey.h"
#include "tokens.h"
#include "whole.h"

namespace {

// The least letters of a token of the viewers: of drawn ones, more than can be guessed.
constexpr size_t kLeastToken = 24;
// The coarsest level of a cell that one query may have, and the most queries for the whole area.
constexpr int kCoarsest = 6;
constexpr long kArea = 8 * kCovered;
// The shares of viewers, and of who asks for the page alone, in what is done at once. No supplier has such a name.
constexpr const char *kShare = "/map", *kPageShare = "/map page";
// The least bytes that are packed, and how hard zlib tries.
constexpr size_t kPacked = 1000;
constexpr int kEffort = 4;
// The ground that the operator adds, where that is none.
constexpr const char* kNoGround = R"({"type":"FeatureCollection","features":[]})";
// The page loads nothing from elsewhere, and runs nothing that is not a file of its own.
constexpr const char* kPageFields =
    "Content-Security-Policy: default-src 'none'; script-src 'self'; style-src 'self'; connect-src 'self'; img-src 'self' data:; "
    "base-uri 'none'; form-action 'none'; frame-ancestors 'none'\r\n"
    "X-Content-Type-Options: nosniff\r\nReferrer-Policy: no-referrer\r\nCache-Control: no-cache\r\n";
constexpr const char* kDataFields = "X-Content-Type-Options: nosniff\r\nCache-Control: no-store\r\n";

Cells area_of(const std::string& text) {
  Cells cells;
  std::istringstream words(text);
  for (std::string word; std::getline(words, word, ',');) {
    S2CellId cell = S2CellId::FromToken(word);
    if (!cell.is_valid() || cell.ToToken() != word || cell.level() < kCoarsest || cell.level() > kLevel)
      throw std::runtime_error(word + ": no token of a cell of the levels 6 to 13, as --map-area takes them with commas in between");
    cells.push_back(cell);
  }
  std::sort(cells.begin(), cells.end());
  for (size_t k = 1; k < cells.size(); k++)
    if (cells[k - 1].intersects(cells[k])) throw std::runtime_error("--map-area has a cell twice, or one that lies inside another");
  if (cells.empty() || covered(cells) > kArea)
    throw std::runtime_error("--map-area takes one cell or more, and at most 131,072 cells of level 13 in all");
  return cells;
}

// The member of a query in a target, as a whole number from the least to the most.
std::optional<long> number_of(const std::string& target, const std::string& name, long least, long most) {
  size_t query = target.find('?');
  if (query == std::string::npos) return std::nullopt;
  std::istringstream members(target.substr(query + 1));
  for (std::string it; std::getline(members, it, '&');) {
    if (it.compare(0, name.size() + 1, name + "=") != 0) continue;
    std::string digits = it.substr(name.size() + 1);
    size_t sign = digits[0] == '-';
    bool is_number = digits.size() > sign && digits.size() < 14 && digits.find_first_not_of("0123456789", sign) == std::string::npos;
    long number = is_number ? std::stol(digits) : most + 1;
    if (number < least || number > most) throw Refusal(400, name + " is no whole number from " + std::to_string(least) + " to " + std::to_string(most));
    return number;
  }
  return std::nullopt;
}

Moment moment_of(const std::string& target) {
  Moment moment{number_of(target, "at", 0, 253402300799), number_of(target, "altitude", -10000, 100000)};
  if (moment.altitude) *moment.altitude *= 10;
  return moment;
}

double rounded(double degrees) { return std::round(degrees * 1e6) / 1e6; }

// The corners of a cell as numbers, longitude and latitude by turns, which do not jump at the antimeridian.
json outline_of(S2CellId cell) {
  json numbers = json::array();
  double first = 0;
  for (LatLng it : corners(cell)) {
    if (numbers.empty()) first = it.lng;
    numbers.push_back(rounded(it.lng + (it.lng - first > 180 ? -360 : first - it.lng > 180 ? 360 : 0)));
    numbers.push_back(rounded(it.lat));
  }
  return numbers;
}

json ring_of(S2CellId cell) {
  json numbers = outline_of(cell), ring = json::array();
  for (size_t k = 0; k < 8; k += 2) ring.push_back({numbers[k], numbers[k + 1]});
  ring.push_back(ring[0]);
  return ring;
}

const char* name_of(size_t kind) { return kind == size_t(Kind::intent) ? "intent" : "constraint"; }

json tokens_of(const std::set<S2CellId>& cells) {
  json tokens = json::array();
  for (S2CellId it : cells) tokens.push_back(it.ToToken());
  return tokens;
}

json head_of(const Sight::Picture& picture, const Moment& moment) {
  json head = {{"now", long(std::time(nullptr))}, {"asked", picture.asked}};
  if (!picture.fault.empty()) head["fault"] = picture.fault;
  if (moment.at) head["at"] = *moment.at;
  if (moment.altitude) head["altitude"] = *moment.altitude / 10;
  return head;
}

// With the cells that it is in, each of which is among `cells` once.
json placed_of(const Sight::Placed& it, json& cells) {
  json made = it.reference;
  made["is_there"] = it.is_there;
  made["in"] = tokens_of(it.in);
  for (const auto* held : {&it.in, &it.perhaps})
    for (S2CellId cell : *held)
      if (json& outline = cells[cell.ToToken()]; outline.is_null()) outline = outline_of(cell);
  return made;
}

// For the page.
json airspace_of(const Sight& sight, const Sight::Picture& picture, const Moment& moment) {
  json made = head_of(picture, moment);
  json &cells = made["cells"] = json::object(), &references = made["references"] = json::array();
  made["area"] = json::array();
  for (S2CellId it : sight.area()) made["area"].push_back(outline_of(it));
  for (size_t kind = 0; kind < picture.placed.size(); kind++)
    for (const auto& [id, it] : picture.placed[kind]) {
      json reference = placed_of(it, cells);
      reference["kind"] = name_of(kind);
      reference["perhaps"] = tokens_of(it.perhaps);
      references.push_back(std::move(reference));
    }
  if (picture.subscriptions) {
    json& subscriptions = made["subscriptions"] = json::array();
    for (const auto& [id, it] : *picture.subscriptions) subscriptions.push_back(placed_of(it, cells));
    made["suppliers"] = picture.suppliers;
  }
  return made;
}

// Each reference that is there with all its cells, for other programs.
json features_of(const Sight::Picture& picture, const Moment& moment) {
  json made = head_of(picture, moment), features = json::array();
  for (size_t kind = 0; kind < picture.placed.size(); kind++)
    for (const auto& [id, it] : picture.placed[kind]) {
      if (!it.is_there) continue;
      json polygons = json::array(), properties = it.reference;
      for (const auto* held : {&it.in, &it.perhaps})
        for (S2CellId cell : *held) polygons.push_back({ring_of(cell)});
      properties["kind"] = name_of(kind);
      properties["is_settled"] = it.perhaps.empty();
      features.push_back({{"type", "Feature"}, {"id", id}, {"geometry", {{"type", "MultiPolygon"}, {"coordinates", polygons}}}, {"properties", properties}});
    }
  made["type"] = "FeatureCollection";
  made["features"] = features;
  return made;
}

json cell_of(Sight& sight, const std::string& target, const Moment& moment) {
  size_t from = target.find("cell=");
  std::string word = from == std::string::npos ? "" : target.substr(from + 5, target.find('&', from) - from - 5);
  S2CellId cell = S2CellId::FromToken(word);
  bool is_cell = cell.is_valid() && cell.ToToken() == word && sight.may_be_asked(cell);
  if (!is_cell) throw Refusal(400, "cell is no cell of the area");
  json references = json::array();
  auto found = sight.in_cell(cell, moment);
  for (size_t kind = 0; kind < found.size(); kind++)
    for (auto& [id, reference] : found[kind]) {
      reference["kind"] = name_of(kind);
      references.push_back(reference);
    }
  return {{"now", long(std::time(nullptr))}, {"cell", word}, {"references", references}};
}

Reply data(const json& body, const char* type = "application/json") {
  return {200, body.dump(-1, ' ', false, json::error_handler_t::replace), "", type, kDataFields};
}

// Whether the client takes what is packed by gzip.
bool takes_packed(const Head& head) {
  std::istringstream codings(head.value("Accept-Encoding"));
  for (std::string it; std::getline(codings, it, ',');) {
    it.erase(std::remove(it.begin(), it.end(), ' '), it.end());
    if (it == "gzip" || (it.compare(0, 7, "gzip;q=") == 0 && it.find_first_of("123456789", 7) != std::string::npos)) return true;
  }
  return false;
}

// A reply as it is, or packed where that is worth it.
Reply packed(Reply reply) {
  reply.fields += "Vary: Accept-Encoding\r\n";
  z_stream stream{};
  if (reply.body.size() < kPacked || deflateInit2(&stream, kEffort, Z_DEFLATED, MAX_WBITS + 16, MAX_MEM_LEVEL, Z_DEFAULT_STRATEGY) != Z_OK) return reply;
  std::string made(deflateBound(&stream, reply.body.size()), '\0');
  stream.next_in = reinterpret_cast<Bytef*>(reply.body.data());
  stream.avail_in = uInt(reply.body.size());
  stream.next_out = reinterpret_cast<Bytef*>(made.data());
  stream.avail_out = uInt(made.size());
  bool is_done = deflate(&stream, Z_FINISH) == Z_STREAM_END;
  made.resize(stream.total_out);
  deflateEnd(&stream);
  if (!is_done) return reply;
  reply.body = std::move(made);
  reply.fields += "Content-Encoding: gzip\r\n";
  return reply;
}

}  // namespace

// From the operator's port of the service where that is said, and else by queries.
std::unique_ptr<Sight> Map::sight_of(const std::string& token, const Options& options, Service& service) {
  if (options.airspace.empty()) return std::make_unique<Survey>(service, token, area_of(options.area));
  return std::make_unique<Whole>(place_of(options.airspace, "--airspace-url"), options.area.empty() ? Cells() : area_of(options.area));
}

Map::Map(const Options& options, Service& service) : Map(tokens_of(options.tokens), options, service) {}

Map::Map(const Tokens& tokens, const Options& options, Service& service)
    : viewer_(tokens.viewer),
      ground_(options.ground.empty() ? kNoGround : ground_of(contents(options.ground), options.ground)),
      sight_(sight_of(tokens.service, options, service)),
      instances_(options.instances) {}

Map::Tokens Map::tokens_of(const std::string& file) {
  std::istringstream lines(contents(file));
  Tokens tokens;
  std::getline(lines, tokens.service);
  std::getline(lines, tokens.viewer);
  auto is_token = [](const std::string& it) { return !it.empty() && std::all_of(it.begin(), it.end(), [](char c) { return c > ' ' && c <= '~'; }); };
  if (!is_token(tokens.service) || !is_token(tokens.viewer) || tokens.viewer.size() < kLeastToken)
    throw std::runtime_error(file + ": has no token of the service in its first line, or none of 24 letters or more for viewers in its second");
  return tokens;
}

void Map::check_viewer(const Head& head) const {
  std::string field = head.count("Authorization") == 1 ? head.value("Authorization") : "";
  bool is_bearer = strncasecmp(field.c_str(), "bearer ", 7) == 0;
  std::string token = is_bearer ? field.substr(7) : "";
  // takes as long for each wrong one of the same length
  if (token.size() != viewer_.size() || CRYPTO_memcmp(token.data(), viewer_.data(), token.size()) != 0) throw Refusal(401, "the token of the map is needed");
}

// What changed since a version; and, where items have no volumes, which are not there at a moment at which they may be by time.
std::string Map::changes_of(const std::string& target) {
  Moment moment = moment_of(target);
  size_t from = target.find("since=");
  std::string version = from == std::string::npos ? "" : target.substr(from + 6, target.find('&', from) - from - 6), changed;
  Sight::State state;
  {
    std::lock_guard<std::mutex> lock(mutex_);
    state = sight_->fill(changes_);
    changed = changes_.since(version);
  }
  json head = {{"now", long(std::time(nullptr))}, {"asked", state.asked}, {"is_whole", sight_->is_whole()}};
  if (!state.fault.empty()) head["fault"] = state.fault;
  if (version.empty()) {
    head["area"] = json::array();
    for (S2CellId it : sight_->area()) head["area"].push_back(outline_of(it));
  }
  if (!sight_->is_whole() && !moment.is_all()) {
    json& away = head["away"] = json::array();
    auto picture = sight_->picture(moment);
    for (size_t kind = 0; kind < picture.placed.size(); kind++)
      for (const auto& [id, it] : picture.placed[kind])
        if (!it.is_there) away.push_back(kItems[kind].first + id);
  }
  std::string text = head.dump(-1, ' ', false, json::error_handler_t::replace);
  return text.substr(0, text.size() - 1) + "," + changed + "}";
}

std::optional<Task> Map::admit(const Head& head, Note& note) {
  std::string path = head.target.substr(0, head.target.find('?'));
  if (path != "/map" && path.compare(0, 5, "/map/") != 0) return std::nullopt;
  auto file = page_file(path);
  bool is_data = path == "/map/airspace.json" || path == "/map/airspace.geojson" || path == "/map/cell.json" || path == "/map/ground.geojson" ||
                 path == "/map/changes.json" || path == "/map/instances.json";
  if (!file && !is_data) throw Refusal(404, "there is no such path");
  note.route = path.substr(1);
  if (head.method != "GET") throw Refusal(405, "the path takes GET", "GET");
  bool may_pack = takes_packed(head);
  auto sent = [may_pack](Reply reply) { return may_pack ? packed(std::move(reply)) : reply; };
  if (file) return Task{kPageShare, false, [sent, it = *file](auto&, auto&) { return sent({200, std::string(it.text), "", it.type, kPageFields}); }};
  check_viewer(head);
  note.uss = "map";
  auto run = [this, path, sent, target = head.target](auto&, auto&) {
    if (path == "/map/ground.geojson") return sent({200, ground_, "", "application/geo+json", kDataFields});
    if (path == "/map/changes.json") return sent({200, changes_of(target), "", "application/json", kDataFields});
    if (path == "/map/instances.json") return sent(data({{"now", long(std::time(nullptr))}, {"instances", instances_.shown()}}));
    Moment moment = moment_of(target);
    if (path == "/map/cell.json") return sent(data(cell_of(*sight_, target, moment)));
    auto picture = sight_->picture(moment);
    bool is_for_page = path == "/map/airspace.json";
    return sent(is_for_page ? data(airspace_of(*sight_, picture, moment)) : data(features_of(picture, moment), "application/geo+json"));
  };
  return Task{kShare, false, run};
}

std::string make_map_tokens(const std::string& token_file, const std::string& uss) {
  static const Scopes wanted = {"utm.strategic_coordination", "utm.constraint_processing"};
  unsigned char drawn[24];
  if (RAND_bytes(drawn, sizeof drawn) != 1) throw std::runtime_error("no token can be drawn");
  std::string digits;
  for (unsigned char it : drawn) digits += {"0123456789abcdef"[it >> 4], "0123456789abcdef"[it & 15]};
  for (const ServiceToken& it : read_token_file(token_file))
    if (it.uss == uss && it.scopes == wanted) return it.text + "\n" + digits + "\n";
  throw std::runtime_error(token_file + ": has no token of " + uss + " with exactly the scopes utm.strategic_coordination and utm.constraint_processing");
}
