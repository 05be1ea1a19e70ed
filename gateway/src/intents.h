// Intents with the subscriptions that stand for them: one that a put asks for by `new_subscription` is an explicit one of
// the service, made before the intent and taken away after it. Nothing of it is kept here.
#pragma once

#include <optional>
#include <string>

#include "callers.h"
#include "upstream.h"

// What is done with `new_subscription`.
enum class NewSubscription { make, ignore, refuse };

class Intents {
 public:
  Intents(const Secret& secret, NewSubscription wish, const Caller& caller, Upstream& service)
      : secret_(secret), wish_(wish), uss_(caller.uss), service_(service) {}

  // Creates the intent, or with an OVN updates it.
  Answer put(const std::string& id, const std::optional<std::string>& ovn, IntentPut put);
  Answer remove(const std::string& id, const std::string& ovn);

  // Whether the caller's subscription of this id was made for an intent.
  bool is_implicit(const std::string& subscription) const;
  // Says so of each subscription in an answer.
  void mark(json& answer) const;

 private:
  std::string implicit_id(const std::string& intent, const std::string& ovn, const json& body, int turn) const;
  std::string seal(const std::string& half) const;
  std::optional<std::string> named_by(const std::string& intent);
  Answer make(const std::string& intent, const std::string& ovn, const json& body, std::optional<std::string>& made);
  static bool is_open(const Answer& answer);
  static Answer denied(Answer answer, const WantedSubscription& wanted);
  Answer put_once(const std::string& id, const std::string& ovn, IntentPut& put);
  void take_away(const std::string& subscription);

  const Secret& secret_;
  NewSubscription wish_;
  std::string uss_;
  Upstream& service_;
};
