// Bodies as the standard has them, and as the service has them. Pure: nothing here knows of HTTP, and the moment is given.
#pragma once

#include <optional>
#include <string>

#include <nlohmann/json.hpp>

#include "budget.h"

using json = nlohmann::json;

// A JSON object. A number with a fraction or an exponent is kept as its text, so that it can be rounded exactly: as `binary`,
// which no text makes.
json read_json(const std::string& text);

// What the service is sent, of what a supplier sent. All bounds are rounded outwards; what does not fit is a Refusal.
json query_for_service(const json& body, const Budget& budget);
json constraint_for_service(const json& body, const Budget& budget);
json subscription_for_service(const json& body, long now, const Budget& budget);
json availability_for_service(const json& body);

// What a put of an intent asks for besides.
struct WantedSubscription {
  std::string uss_base_url;
  bool for_constraints;
};
struct IntentPut {
  json body;
  std::optional<WantedSubscription> wanted;
};
IntentPut intent_for_service(const json& body, const Budget& budget);

// The put of a subscription for intents over all volumes of an intent's put: their cells, and the hull of their bounds.
json subscription_over(const json& extents, const WantedSubscription& wanted);

// What a supplier is sent, of what the service answered.
json answer_for_supplier(json answer);

bool is_uuid(const std::string& text);
std::string lower_case(std::string text);
bool is_ovn(const std::string& text);
bool is_uss(const std::string& text);
