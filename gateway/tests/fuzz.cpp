// What libFuzzer calls with drawn bytes: the readers of bodies, tokens, requests and the operator's ground. They may throw only a
// Refusal or a std::runtime_error, what is translated must be JSON, and the same requests must be read in whatever pieces they arrive.
#include <cstdlib>
#include <ctime>
#include <string>

#include "budget.h"
#include "callers.h"
#include "ground.h"
#include "reading.h"
#include "refusal.h"
#include "translate.h"

namespace {

Callers& callers() {
  static const std::string folder = std::getenv("FUZZ_FILES") ? std::getenv("FUZZ_FILES") : ".";
  static Callers made({folder + "/tokens.toml", folder + "/keys.pem", "auth.example", "dss.example"});
  return made;
}

// Ends the program if requests depend on the pieces in which they arrive: as a whole, byte by byte, and in drawn sizes.
void use_requests(const std::string& text) {
  std::string whole = read_requests(text, [&](size_t) { return text.size(); });
  std::string bytes = read_requests(text, [](size_t) { return 1; });
  std::string drawn = read_requests(text, [&](size_t at) { return static_cast<unsigned char>(text[at]) % 67; });
  if (whole != bytes || whole != drawn) std::abort();
}

void use(char what, const std::string& text) {
  Budget budget(kSeconds);
  switch (what) {
    case 'q': query_for_service(read_json(text), budget).dump(); break;
    case 'i': intent_for_service(read_json(text), budget).body.dump(); break;
    case 'c': constraint_for_service(read_json(text), budget).dump(); break;
    case 's': subscription_for_service(read_json(text), 1000, budget).dump(); break;
    case 'a': availability_for_service(read_json(text)).dump(); break;
    case 'r': answer_for_supplier(read_json(text)); break;
    case 'g': ground_of(text, "ground"); break;
    case 'h': use_requests(text); break;
    case 't': callers().caller("Bearer " + text, std::time(nullptr)); break;
    default: break;
  }
}

}  // namespace

extern "C" int LLVMFuzzerTestOneInput(const unsigned char* data, size_t size) {
  if (size == 0) return 0;
  try {
    use(char(data[0]), std::string(reinterpret_cast<const char*>(data) + 1, size - 1));
  } catch (const std::runtime_error&) {
  }
  return 0;
}
