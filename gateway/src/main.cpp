// The gateway: the standard's interface in front of the service. What it takes on the command line stands in `usage`.
#include <algorithm>
#include <ctime>
#include <iostream>
#include <map>

#include <malloc.h>
#include <sys/stat.h>
#include <unistd.h>

#include "gateway.h"
#include "refusal.h"
#include "translate.h"

namespace {

constexpr const char* kUsage =
    "gateway serve --port N|--socket PATH --service N --tokens FILE --keys FILE|--jwks FILE --issuer TEXT --audience TEXT\n"
    "              --secret FILE|--subscription-secret FILE [--new-subscription make|ignore|refuse] [--admin-url URL]\n"
    "              [--connections N] [--kept-connections N]\n"
    "              [--map-token FILE [--map-area CELL,CELL..] [--airspace-url URL] [--map-ground FILE] [--instances NAME=URL,..]]\n"
    "              where a URL is http://127.0.0.1:N, an admin port of the service\n"
    "gateway tokens --secret FILE --suppliers FILE\n"
    "gateway map-token --tokens FILE --supplier USS\n"
    "gateway translate [--now SECONDS]\n";
// Connections from outside at once, and those to the service that are kept, where no option says another number.
constexpr const char *kConnections = "1000", *kKept = "16";

using Options = std::map<std::string, std::string>;

// A number of few digits, from the least on.
int number_of(const std::string& text, int least, int most, const char* what) {
  bool is_number = !text.empty() && text.size() <= 5 && text.find_first_not_of("0123456789") == std::string::npos;
  int number = is_number ? std::stoi(text) : -1;
  if (number < least || number > most)
    throw std::runtime_error(text + ": no " + what + ", which is a number from " + std::to_string(least) + " to " + std::to_string(most));
  return number;
}

NewSubscription wish_of(const std::string& text) {
  if (text == "make") return NewSubscription::make;
  if (text == "ignore") return NewSubscription::ignore;
  if (text == "refuse") return NewSubscription::refuse;
  throw std::runtime_error(text + ": --new-subscription takes make, ignore or refuse");
}

std::string or_else(const Options& options, const char* name, const char* other) { return options.count(name) ? options.at(name) : other; }

// The one of two options that is given.
const char* one_of(const Options& options, const char* name, const char* other) {
  if (options.count(name) == options.count(other)) throw std::runtime_error(std::string("one of --") + name + " and --" + other + " is needed");
  return options.count(name) ? name : other;
}

std::optional<Map::Options> map_of(const Options& options) {
  if (options.count("map-token") != (options.count("map-area") || options.count("airspace-url")))
    throw std::runtime_error("--map-token goes with --map-area or --airspace-url, and they with it");
  for (const char* name : {"map-ground", "instances"})
    if (options.count(name) && !options.count("map-token")) throw std::runtime_error(std::string("--") + name + " goes with --map-token");
  if (!options.count("map-token")) return std::nullopt;
  auto given = [&](const char* name) { return or_else(options, name, ""); };
  return Map::Options{given("map-token"), given("map-area"), given("airspace-url"), given("map-ground"), given("instances")};
}

// The operator's port of the service, where one is known.
std::optional<Place> admin_of(const Options& options) {
  for (const char* name : {"admin-url", "airspace-url"})
    if (options.count(name)) return place_of(options.at(name), std::string("--") + name);
  return std::nullopt;
}

Gateway::Options gateway_of(const Options& options) {
  std::string keys = one_of(options, "keys", "jwks");
  Callers::Files files = {options.at("tokens"), options.at(keys), options.at("issuer"), options.at("audience"),
                          keys == "keys" ? Keys::Form::pem : Keys::Form::jwks};
  int kept = number_of(or_else(options, "kept-connections", kKept), 0, 100, "count of connections");
  return {files, options.at(one_of(options, "secret", "subscription-secret")), wish_of(or_else(options, "new-subscription", "make")),
          number_of(options.at("service"), 1, 65535, "port"), size_t(kept), admin_of(options), map_of(options)};
}

void serve_by(const Options& options) {
  bool has_port = one_of(options, "port", "socket") == std::string("port");
  int port = has_port ? number_of(options.at("port"), 1, 65535, "port") : 0;
  int connections = number_of(or_else(options, "connections", kConnections), 1, 60000, "count of connections");
  Gateway gateway(gateway_of(options));
  // else each of the threads would keep the memory of the largest body that it once had
  mallopt(M_ARENA_MAX, 2);
  int listening = port ? listening_port(port) : listening_path(options.at("socket"));
  std::cerr << "gateway: listening on " + (port ? "127.0.0.1:" + std::to_string(port) : options.at("socket")) + "\n";
  serve(listening, size_t(connections), [&](const Head& head, Note& note) { return gateway.admit(head, note); });
  if (!port) unlink(options.at("socket").c_str());
}

// Translates lines, each a word for what it is and a body: for tests without HTTP.
json translated(const std::string& line, long now) {
  size_t end = std::min(line.find(' '), line.size());
  std::string what = line.substr(0, end);
  try {
    Budget budget(kSeconds);
    json body = read_json(line.substr(end));
    if (what == "query") return query_for_service(body, budget);
    if (what == "constraint") return constraint_for_service(body, budget);
    if (what == "subscription") return subscription_for_service(body, now, budget);
    if (what == "availability") return availability_for_service(body);
    if (what == "answer") return answer_for_supplier(body);
    IntentPut put = intent_for_service(body, budget);
    if (what == "intent") return put.body;
    if (what == "new_subscription" && put.wanted) return subscription_over(put.body.at("extents"), *put.wanted);
    throw Refusal(400, "no word for what the line is");
  } catch (const Refusal& refusal) {
    return {{"status", refusal.status}, {"message", refusal.what()}};
  }
}

// The options of a command, each once and all that are needed.
Options options_of(const std::vector<std::string>& words, const std::vector<std::string>& needed, const std::vector<std::string>& others) {
  Options options;
  auto is_one = [](const std::vector<std::string>& names, const std::string& name) { return std::find(names.begin(), names.end(), name) != names.end(); };
  for (size_t k = 0; k < words.size(); k += 2) {
    std::string name = words[k].substr(0, 2) == "--" ? words[k].substr(2) : "";
    if (!is_one(needed, name) && !is_one(others, name)) throw std::runtime_error(words[k] + ": no option of this command");
    if (k + 1 == words.size() || !options.emplace(name, words[k + 1]).second) throw std::runtime_error(words[k] + ": takes one value");
  }
  for (const std::string& name : needed)
    if (!options.count(name)) throw std::runtime_error("--" + name + " is needed");
  return options;
}

// A file that tokens are printed into is for its owner alone, whatever the umask was as it was made.
void keep_from_others() {
  struct stat output {};
  bool is_file = fstat(STDOUT_FILENO, &output) == 0 && S_ISREG(output.st_mode);
  if (is_file && fchmod(STDOUT_FILENO, S_IRUSR | S_IWUSR) != 0) throw std::runtime_error("the file that it prints into cannot be kept from others");
}

int run(const std::vector<std::string>& words) {
  umask(S_IRWXG | S_IRWXO);
  std::string command = words.empty() ? "" : words[0];
  std::vector<std::string> rest(words.begin() + !words.empty(), words.end());
  if (command == "serve") {
    serve_by(options_of(rest, {"service", "tokens", "issuer", "audience"},
                        {"port", "socket", "keys", "jwks", "secret", "subscription-secret", "new-subscription", "admin-url", "connections", "kept-connections",
                         "map-token", "map-area", "airspace-url", "map-ground", "instances"}));
    return 0;
  }
  if (command == "tokens") {
    Options options = options_of(rest, {"secret", "suppliers"}, {});
    keep_from_others();
    std::cout << make_token_file(Secret(options.at("secret")), contents(options.at("suppliers")));
    return std::cout.flush() ? 0 : 1;
  }
  if (command == "map-token") {
    Options options = options_of(rest, {"tokens", "supplier"}, {});
    keep_from_others();
    std::cout << make_map_tokens(options.at("tokens"), options.at("supplier"));
    return std::cout.flush() ? 0 : 1;
  }
  if (command == "translate") {
    Options options = options_of(rest, {}, {"now"});
    long now = options.count("now") ? std::stol(options.at("now")) : std::time(nullptr);
    for (std::string line; std::getline(std::cin, line);)
      std::cout << translated(line, now).dump(-1, ' ', false, json::error_handler_t::replace) << std::endl;
    return 0;
  }
  std::cout << kUsage;
  return command == "--help" ? 0 : 1;
}

}  // namespace

int main(int count, char** words) {
  try {
    return run(std::vector<std::string>(words + 1, words + count));
  } catch (const std::exception& fault) {
    std::cerr << std::string("gateway: ") + fault.what() + "\n";
    return 1;
  }
}
