#include "intents.h"

#include <algorithm>

#include "refusal.h"

namespace {

const std::string kIntents = "/dss/v1/operational_intent_references/", kSubscriptions = "/dss/v1/subscriptions/";
// Of one put so many subscriptions that intents name are passed by, and so often others get in between.
constexpr int kTurns = 4, kTries = 8;

}  // namespace

// The second half of an id with this first half: nobody else can make an id whose halves fit.
std::string Intents::seal(const std::string& half) const { return secret_.mac("seal|" + uss_ + "|" + half).substr(0, 16); }

// A UUID of version 4 by its form, as the standard asks for. It is the same for the same subscription over the same version, so
// that a repeated put finds what the first one made, at any gateway with this secret. Another put over this version gets another
// one: gateways do not know of each other, and none may put a subscription over other volumes that an intent is about to name.
std::string Intents::implicit_id(const std::string& intent, const std::string& ovn, const json& body, int turn) const {
  std::string text = "implicit|" + uss_ + "|" + intent + "|" + ovn + "|" + std::to_string(turn) + "|" + body.dump();
  std::string half = secret_.mac(text).substr(0, 16);
  half[12] = '4';
  std::string digits = half + seal(half);
  digits[16] = "89ab"[digits[16] % 4];
  for (size_t at : {20, 16, 12, 8}) digits.insert(at, "-");
  return digits;
}

bool Intents::is_implicit(const std::string& subscription) const {
  std::string digits = subscription;
  digits.erase(std::remove(digits.begin(), digits.end(), '-'), digits.end());
  if (digits.size() != 32) return false;
  std::string wanted = seal(digits.substr(0, 16));
  return std::equal(digits.begin() + 17, digits.end(), wanted.begin() + 1);
}

void Intents::mark(json& answer) const {
  auto set = [&](json& it) { it["implicit_subscription"] = is_implicit(it.value("id", "")); };
  if (answer.contains("subscription")) set(answer["subscription"]);
  if (answer.contains("subscriptions"))
    for (json& it : answer["subscriptions"]) set(it);
}

// The implicit subscription that the intent names now.
std::optional<std::string> Intents::named_by(const std::string& intent) {
  Answer now = service_.ask("GET", kIntents + intent);
  if (!now.is_done()) return std::nullopt;
  auto named = now.body.at("operational_intent_reference").at("subscription_id").get<std::string>();
  return is_implicit(named) ? std::make_optional(named) : std::nullopt;
}

// Puts a subscription for a put of the intent over one of its versions, and sets `made`; else the answer is why not.
Answer Intents::make(const std::string& intent, const std::string& ovn, const json& body, std::optional<std::string>& made) {
  int turn = 0;
  for (int tries = 0; turn < kTurns && tries < kTries; tries++) {
    std::string id = implicit_id(intent, ovn, body, turn), path = kSubscriptions + id;
    Answer answer = service_.ask("PUT", path, body);
    if (answer.status == 409) {
      // one is there from a put whose answer was lost, of another gateway, or which an intent names: that one stays as it is
      Answer found = service_.ask("GET", path);
      if (found.status == 404) continue;
      if (!found.is_done()) return found;
      const json& there = found.body.at("subscription");
      bool is_named = !there.at("dependent_operational_intents").empty();
      turn += is_named;
      if (is_named) continue;
      answer = service_.ask("PUT", path + "/" + there.at("version").get<std::string>(), body);
      if (answer.status == 409 || answer.status == 404) continue;
    }
    if (answer.is_done()) made = id;
    return answer;
  }
  throw Refusal(409, turn == kTurns ? "other intents name the subscriptions that were made for this one: delete or update them first"
                                    : "another gateway changes this intent at the same time: read it, and decide again");
}

// What goes wrong here leaves a subscription too many, and never one too few.
void Intents::take_away(const std::string& subscription) {
  try {
    Answer found = service_.ask("GET", kSubscriptions + subscription);
    if (found.is_done()) service_.ask("DELETE", kSubscriptions + subscription + "/" + found.body.at("subscription").at("version").get<std::string>());
  } catch (const Refusal&) {
  }
}

// Why the subscription that an intent asks for was denied; by a missing scope, with the scopes that it needs.
Answer Intents::denied(Answer answer, const WantedSubscription& wanted) {
  static const std::string kScope = ": new_subscription needs a token with the scope utm.strategic_coordination";
  std::string message = answer.body.value("message", "");
  bool is_of_scope = message == "P4 SCOPE" || message == "P11 ROLE";
  if (is_of_scope) message += kScope + (wanted.for_constraints ? ", and with utm.constraint_processing for notify_for_constraints" : "");
  answer.body["message"] = is_of_scope ? message : message + ": so was the subscription answered that the intent asks for";
  return answer;
}

// Whether a pool may still make what was answered so.
bool Intents::is_open(const Answer& answer) {
  std::string message = answer.body.value("message", "");
  return answer.status == 503 && (message == "unknown" || message == "stopped");
}

// The put with the subscription that it asks for, which it leaves where the intent may name it: also where the answer is lost.
Answer Intents::put_once(const std::string& id, const std::string& ovn, IntentPut& put) {
  std::optional<std::string> made;
  if (put.wanted) {
    Answer answer = make(id, ovn, subscription_over(put.body.at("extents"), *put.wanted), made);
    if (!made) return denied(std::move(answer), *put.wanted);
    put.body["subscription_id"] = *made;
  }
  Answer answer = service_.ask("PUT", kIntents + id + (ovn.empty() ? "" : "/" + ovn), put.body);
  if (made && !answer.is_done() && !is_open(answer)) take_away(*made);
  return answer;
}

Answer Intents::put(const std::string& id, const std::optional<std::string>& ovn, IntentPut put) {
  if (put.wanted && wish_ == NewSubscription::refuse)
    throw Refusal(400, "new_subscription is not taken here: put a subscription, and name it by subscription_id");
  if (wish_ == NewSubscription::ignore) put.wanted.reset();
  auto before = ovn ? named_by(id) : std::nullopt;
  // an update that names its own implicit subscription goes on with one over its new volumes
  if (before && put.body.value("subscription_id", "") == *before) {
    Answer found = service_.ask("GET", kSubscriptions + *before);
    if (found.is_done()) {
      const json& there = found.body.at("subscription");
      put.wanted = {there.at("uss_base_url"), there.at("notify_for_constraints")};
    }
  }
  Answer answer = put_once(id, ovn.value_or(""), put);
  // another gateway, whose same put was denied, took it away in between
  auto was_taken = [&] { return put.wanted && answer.status == 400 && answer.body.value("message", "") == "P16 SUBSCRIPTION"; };
  for (int tries = 1; tries < kTries && was_taken(); tries++) answer = put_once(id, ovn.value_or(""), put);
  if (before && answer.is_done()) take_away(*before);
  return answer;
}

Answer Intents::remove(const std::string& id, const std::string& ovn) {
  auto before = named_by(id);
  Answer answer = service_.ask("DELETE", kIntents + id + "/" + ovn);
  if (before && answer.is_done()) take_away(*before);
  return answer;
}
