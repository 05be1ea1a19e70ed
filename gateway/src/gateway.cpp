#include "gateway.h"

#include <array>
#include <iostream>

#include <openssl/rand.h>
#include <strings.h>

#include "refusal.h"
#include "translate.h"

namespace {

constexpr size_t kPath = 512;

// What nothing here needs.
void check_form(const Head& head) {
  if (head.target.size() > kPath) throw Refusal(404, "there is no such path");
  if (head.count("Content-Encoding")) throw Refusal(415, "Content-Encoding is not taken");
  if (head.value("Content-Type").compare(0, 10, "multipart/") == 0) throw Refusal(415, "the body must be application/json");
}

void check_method(const std::string& method, const std::string& taken, const char* why) {
  if ((", " + taken + ",").find(" " + method + ",") == std::string::npos) throw Refusal(405, why + taken, taken);
}

// What to do about a rule of the service that was broken.
constexpr std::array<std::pair<const char*, const char*>, 12> kAdvice = {{
    {"P6 AREA", "the volumes cover too much: send several requests"},
    {"P7 FOUND", "nothing of this kind has this id, or it was deleted: query the area"},
    {"P8 FRESH", "the id is in use: read it, and update it if it is yours, or use a new random UUID"},
    {"P9 MANAGER", "another USS manages it: leave it to its manager"},
    {"P10 VERSION", "the OVN or version in the path is not the current one: read the current one, and decide again"},
    {"P11 ROLE", "the token lacks a scope that this needs: get a token with it"},
    {"P12 CHANGE", "it cannot change to this state: delete it, and create another one"},
    {"P13 ENDED", "no volume ends after the current time: send a later time_end"},
    {"P14 KEY", "the key lacks the current OVN of what is listed: ask each manager at its uss_base_url, and add the OVNs to the key"},
    {"P15 LIMIT", "a limit of versions is reached: delete it, and create it again"},
    {"P16 SUBSCRIPTION", "the subscription does not exist or is of another USS: name one of yours"},
    {"P17 DEPENDED", "intents name the subscription: delete them first, or update them without it"},
}};

void explain(json& answer, const Route& route) {
  auto message = answer.find("message");
  if (message == answer.end()) return;
  if (*message == "P10 VERSION" && route.kind == "uss_availability") {
    *message = "P10 VERSION: old_version is not the current version of the availability: read it, and send its version as old_version";
    return;
  }
  for (const auto& [rule, advice] : kAdvice)
    if (*message == rule) {
      *message = std::string(rule) + ": " + advice;
      return;
    }
}

constexpr const char* kReports = "/dss/v1/reports";
constexpr size_t kReport = 65536;

// Leaves the tokens out of what is written down of a report.
void redact(json& it) {
  if (it.is_string() && strncasecmp(it.get_ref<const std::string&>().c_str(), "authorization", 13) == 0) it = "Authorization: (left out)";
  if (it.is_structured())
    for (json& one : it) redact(one);
}

Reply reply_of(const Answer& answer) { return {answer.status, answer.body.dump(-1, ' ', false, json::error_handler_t::replace), ""}; }

}  // namespace

struct Gateway::Call {
  Route route;
  std::string method;
  Caller caller;

  std::string id() const { return route.kind == "uss_availability" ? route.word : lower_case(route.word); }
  std::string path() const { return "/dss/v1/" + route.kind + "/" + id() + (route.version ? "/" + *route.version : ""); }
  bool has_body() const { return method == "PUT" || method == "POST"; }
};

Task Gateway::admit(const Head& head, Note& note) {
  check_form(head);
  check_method(head.method, "GET, PUT, POST, DELETE", "there is no such method: ");
  if (head.target == "/health" && head.method == "GET") {
    note.route = "health";
    return {"", false, [this](const std::string&, const std::atomic<bool>&) { return health(); }};
  }
  auto of_map = map_ ? map_->admit(head, note) : std::nullopt;
  if (of_map) return *of_map;
  if (head.target == kReports) {
    note.route = "reports";
    check_method(head.method, "POST", "the path takes ");
    if (head.count("Authorization") != 1) throw Refusal(401, "one field Authorization is needed");
    Caller caller = callers_.caller(head.value("Authorization"), std::time(nullptr));
    note.uss = caller.uss;
    return {caller.uss, true, [uss = caller.uss](const std::string& text, const std::atomic<bool>&) { return report(uss, text); }};
  }
  auto route = route_of(head.target);
  if (!route) throw Refusal(404, "there is no such path");
  note.route = route->kind;
  check_method(head.method, route->methods(), "the path takes ");
  if (head.count("Authorization") != 1) throw Refusal(401, "one field Authorization is needed");
  Call call{*route, head.method, callers_.caller(head.value("Authorization"), std::time(nullptr))};
  note.uss = call.caller.uss;
  route->check_words();
  note.route = route->shown();
  auto run = [this, call](const std::string& text, const std::atomic<bool>& is_gone) { return pass(call, text, is_gone); };
  return {call.caller.uss, call.has_body(), run};
}

Reply Gateway::health() {
  Condition service = health_.now();
  if (!service.is_well) throw Refusal(503, "the service does not serve: " + service.text);
  return reply_of({200, {{"service", service.text}}, nullptr});
}

// A line of the log has the report, with an id that its sender gets.
Reply Gateway::report(const std::string& uss, const std::string& text) {
  if (text.size() > kReport) throw Refusal(413, "a report has at most 65,536 bytes");
  read_json(text);  // else a Refusal
  json body = json::parse(text);
  if (!body.contains("exchange") || !body["exchange"].is_object()) throw Refusal(400, "exchange must be an object");
  unsigned char drawn[16];
  if (RAND_bytes(drawn, sizeof drawn) != 1) throw std::runtime_error("no id can be drawn");
  drawn[6] = (drawn[6] & 15) | 64;
  drawn[8] = (drawn[8] & 63) | 128;
  std::string id;
  for (size_t k = 0; k < sizeof drawn; k++) {
    if (k == 4 || k == 6 || k == 8 || k == 10) id += '-';
    id += {"0123456789abcdef"[drawn[k] >> 4], "0123456789abcdef"[drawn[k] & 15]};
  }
  body["report_id"] = id;
  Reply reply = reply_of({201, body, nullptr});
  redact(body);
  std::cerr << "gateway: report of " + uss + " " + body.dump(-1, ' ', true, json::error_handler_t::replace) + "\n";
  return reply;
}

// What the service answers to a caller, in the standard's form.
Reply Gateway::pass(const Call& call, const std::string& text, const std::atomic<bool>& is_gone) try {
  Budget budget(kSeconds, &is_gone);
  json body;
  if (call.has_body()) body = read_json(text);
  Upstream service(service_, call.caller.token);
  Answer answer = ask(call, service, body, budget);
  Intents(secret_, wish_, call.caller, service).mark(answer.body);
  answer.body = answer_for_supplier(std::move(answer.body));
  explain(answer.body, call.route);
  return reply_of(answer);
} catch (const json::exception&) {
  throw Refusal(502, "the service's answer has not its form");
}

Answer Gateway::ask(const Call& call, Upstream& service, const json& body, const Budget& budget) {
  bool is_change = call.method == "PUT" || call.method == "DELETE";
  if (call.route.kind == "operational_intent_references" && is_change) return change_intent(call, service, body, budget);
  json sent;
  if (call.route.is_query())
    sent = query_for_service(body, budget);
  else if (call.method == "PUT" && call.route.kind == "constraint_references")
    sent = constraint_for_service(body, budget);
  else if (call.method == "PUT" && call.route.kind == "subscriptions")
    sent = subscription_for_service(body, std::time(nullptr), budget);
  else if (call.method == "PUT")
    sent = availability_for_service(body);
  budget.check();
  return service.ask(call.method, call.path(), sent);
}

// Changes of one intent come one after the other: the steps of two would get in between each other, and the subscription that
// is made for the one would be put over the volumes of the other.
Answer Gateway::change_intent(const Call& call, Upstream& service, const json& body, const Budget& budget) {
  Intents intents(secret_, wish_, call.caller, service);
  auto put = call.method == "PUT" ? std::make_optional(intent_for_service(body, budget)) : std::nullopt;
  Turns::Turn turn(turns_, call.caller.uss + " " + call.id());
  budget.check();
  return put ? intents.put(call.id(), call.route.version, std::move(*put)) : intents.remove(call.id(), *call.route.version);
}
