// Tests the reader of the requests on a connection. Prints what is wrong, and fails then.
#include <iostream>
#include <string>
#include <vector>

#include "head.h"
#include "reading.h"

namespace {

struct Case {
  std::string bytes, found;
};

std::string put(const std::string& fields, const std::string& body = "") { return "PUT /a HTTP/1.1\r\n" + fields + "\r\n" + body; }
std::string chunked(const std::string& body) { return put("Transfer-Encoding: chunked\r\n", body); }

const std::string kGet = "GET /b HTTP/1.1\r\n\r\n", kGot = "GET /b []\n";

// A body of this size in chunks of that size.
std::string in_chunks(size_t size, size_t chunk) {
  char digits[20];
  std::snprintf(digits, sizeof digits, "%zx\r\n", chunk);
  std::string text;
  for (size_t k = 0; k < size; k += chunk) text += digits + std::string(chunk, 'x') + "\r\n";
  return text + "0\r\n\r\n";
}

std::vector<Case> cases() {
  return {
      {"", "end"},
      {kGet, kGot + "end"},
      {kGet + kGet + "GET", kGot + kGot + "half a head"},
      {put("Content-Length: 3\r\n", "abc") + kGet, "PUT /a [abc]\n" + kGot + "end"},
      {put("Content-Length: 3\r\n", "ab"), "PUT /a half a body"},
      {put("Content-Length: 0\r\n") + kGet, "PUT /a []\n" + kGot + "end"},
      {put("") + kGet, "PUT /a []\n" + kGot + "end"},
      // what follows the last request on a connection is none
      {put("Connection: close\r\n") + kGet, "PUT /a []\n"},
      {put("Connection: keep-alive, Close \r\n") + kGet, "PUT /a []\n"},
      {put("Connection: x\r\nConnection: CLOSE\r\n") + kGet, "PUT /a []\n"},
      {put("Connection: closed\r\n") + kGet, "PUT /a []\n" + kGot + "end"},
      {"GET /b HTTP/1.0\r\n\r\n" + kGet, kGot},
      {kGet + "x\r\n\r\n" + kGet, kGot + " 400"},
      {kGet + "\r\n" + kGet, kGot + " 400"},
      // bodies in chunks
      {chunked("0\r\n\r\n") + kGet, "PUT /a []\n" + kGot + "end"},
      {chunked("3\r\nabc\r\n0010\r\n0123456789abcdef\r\n0\r\n\r\n") + kGet, "PUT /a [abc0123456789abcdef]\n" + kGot + "end"},
      {chunked("3;x=\"y\"\r\na\r\n\r\n0\r\nA: b\r\nC: d\r\n\r\n") + kGet, "PUT /a [a\r\n]\n" + kGot + "end"},
      {put("transfer-encoding: Chunked\r\n", "1\r\na\r\n0\r\n\r\n"), "PUT /a [a]\nend"},
      {chunked("3\r\nab"), "PUT /a half a body"},
      {chunked("3\r\nabc\r\n0\r\n"), "PUT /a half a body"},
      {chunked(in_chunks(kBody, 1024)) + kGet, "PUT /a [" + std::string(kBody, 'x') + "]\n" + kGot + "end"},
      {chunked(in_chunks(kBody + 1024, 1024)), "PUT /a 413"},
      {chunked("100001\r\n"), "PUT /a 413"},
      {chunked("ffffffff\r\n"), "PUT /a 413"},
      {chunked(in_chunks(kBody / 4, 1)), "PUT /a 413"},
      {chunked("\r\n0\r\n\r\n"), "PUT /a 400"},
      {chunked("x\r\n"), "PUT /a 400"},
      {chunked("-1\r\n"), "PUT /a 400"},
      {chunked("0x1\r\n"), "PUT /a 400"},
      {chunked(" 1\r\n"), "PUT /a 400"},
      {chunked("1 \r\n"), "PUT /a 400"},
      {chunked("100000000\r\n"), "PUT /a 400"},
      {chunked("1\r\nab\r\n0\r\n\r\n"), "PUT /a 400"},
      {chunked("1\r\na\n0\r\n\r\n"), "PUT /a 400"},
      {chunked("1\na\r\n0\r\n\r\n"), "PUT /a 400"},
      {chunked("1;" + std::string(255, 'x') + "\r\n"), "PUT /a 400"},
      {chunked("1;" + std::string(1000, 'x')), "PUT /a 400"},
      // lengths that two readers could take differently
      {put("Transfer-Encoding: chunked\r\nContent-Length: 3\r\n", "0\r\n\r\n"), " 400"},
      {put("Transfer-Encoding: chunked\r\nTransfer-Encoding: chunked\r\n", "0\r\n\r\n"), " 400"},
      {put("Transfer-Encoding: gzip, chunked\r\n", "0\r\n\r\n"), "PUT /a 411"},
      {put("Transfer-Encoding: identity\r\n"), "PUT /a 411"},
      {put("Transfer-Encoding:\r\n"), "PUT /a 411"},
      {"PUT /a HTTP/1.0\r\nTransfer-Encoding: chunked\r\n\r\n0\r\n\r\n", "PUT /a 400"},
      {put("Content-Length: 3\r\nContent-Length: 3\r\n", "abc"), "PUT /a 400"},
      {put("Content-Length: 3, 3\r\n", "abc"), "PUT /a 400"},
      {put("Content-Length: +3\r\n", "abc"), " 400"},
      {put("Content-Length: 1048577\r\n"), "PUT /a 413"},
      {put("Content-Length: 99999999999999999999\r\n"), " 413"},
      // heads
      {"GET /b HTTP/1.1\r\nX: " + std::string(kHead, 'x') + "\r\n\r\n", " 400"},
      {"GET /" + std::string(kHead, 'x') + " HTTP/1.1\r\n\r\n", " 414"},
      {put("Content-Length: 3\r\n", "abc") + "GET /" + std::string(kHead, 'x') + " HTTP/1.1\r\n\r\n", "PUT /a [abc]\n 414"},
  };
}

std::string shown(const std::string& text) { return text.size() < 300 ? text : text.substr(0, 300) + "..(" + std::to_string(text.size()) + ")"; }

}  // namespace

int main() {
  int wrong = 0;
  for (const auto& [bytes, found] : cases()) {
    // as a whole, in pieces of one size, and cut once at each place; large ones in fewer ways
    std::vector<std::function<size_t(size_t)>> ways;
    bool is_large = bytes.size() > 20'000;
    for (size_t size : {bytes.size(), size_t(8192), size_t(1000)}) ways.emplace_back([size](size_t) { return size; });
    for (size_t size = 1; size < 10 && !is_large; size++) ways.emplace_back([size](size_t) { return size; });
    for (size_t cut = 1; cut < std::min<size_t>(bytes.size(), 400) && !is_large; cut++)
      ways.emplace_back([cut, &bytes = bytes](size_t at) { return at < cut ? cut : bytes.size(); });
    for (const auto& way : ways) {
      std::string read = read_requests(bytes, way);
      if (read == found) continue;
      std::cerr << "of\n" << shown(bytes) << "\nit reads\n" << shown(read) << "\nin place of\n" << shown(found) << "\n";
      wrong++;
      break;
    }
  }
  return wrong > 0;
}
