#include "upstream.h"

#include <chrono>
#include <thread>

#include <boost/asio/io_context.hpp>
#include <boost/asio/ip/tcp.hpp>
#include <boost/asio/write.hpp>
#include <boost/beast/core/flat_buffer.hpp>
#include <boost/beast/core/tcp_stream.hpp>
#include <boost/beast/http/parser.hpp>
#include <boost/beast/http/read.hpp>
#include <boost/beast/http/string_body.hpp>
#include <sys/socket.h>

#include "refusal.h"

namespace net = boost::asio;
namespace http = boost::beast::http;
using boost::beast::error_code;

namespace {

using Clock = std::chrono::steady_clock;

constexpr std::chrono::seconds kConnecting(2), kAnswering(30);
// The service closes a connection that was silent for 60 seconds.
constexpr std::chrono::seconds kKept(30);
// The service is started anew after its last connection: so long it is tried again, as long as nothing was sent.
constexpr std::chrono::milliseconds kRestart(2000), kPause(20);
// The longest answer that is read, and from which size on one is alone: its JSON takes many times its bytes.
constexpr size_t kAnswer = 16 << 20, kLarge = 1 << 20;

}  // namespace

// One connection, on which a thread waits for each step.
class Connection {
 public:
  // All that it does ends at this time, where one is given.
  explicit Connection(Clock::time_point ends = Clock::time_point::max()) : ends_(ends) {}

  bool open(const Place& place) {
    net::ip::address address = net::ip::address_v4::loopback();
    if (place.is_v6) address = net::ip::address_v6::loopback();
    error_code fault;
    expire_after(kConnecting);
    stream_.async_connect(net::ip::tcp::endpoint(address, uint16_t(place.port)), [&](error_code it) { fault = it; });
    wait();
    if (fault) return false;
    stream_.socket().set_option(net::ip::tcp::no_delay(true), fault);
    return true;
  }

  // Whether the service has neither closed it nor sent what nobody asked for.
  bool stands() {
    char byte;
    bool is_silent = recv(stream_.socket().native_handle(), &byte, 1, MSG_PEEK | MSG_DONTWAIT) < 0 && (errno == EAGAIN || errno == EWOULDBLOCK);
    return is_silent && Clock::now() - used_ < kKept;
  }

  struct Got {
    int status = 0;
    std::string body;
    bool is_whole = false, goes_on = false;  // an answer came, and the connection may be used again
    bool was_closed = false;                 // and nothing of an answer came
    bool is_too_long = false;
    std::shared_ptr<void> alone;  // for a large one
  };
  // Asks once. A large answer is read while no other request has one.
  Got exchange(const std::string& request, std::recursive_mutex& large);

  bool is_used() const { return is_used_; }

 private:
  void expire_after(std::chrono::seconds most) { stream_.expires_at(std::min<Clock::time_point>(Clock::now() + most, ends_)); }

  void wait() {
    io_.restart();
    io_.run();
  }

  net::io_context io_{1};
  boost::beast::tcp_stream stream_{io_};
  boost::beast::flat_buffer buffer_;
  bool is_used_ = false;
  Clock::time_point used_ = Clock::now(), ends_;
};

Connection::Got Connection::exchange(const std::string& request, std::recursive_mutex& large) {
  http::response_parser<http::string_body> parser;
  parser.body_limit(kAnswer);
  error_code fault;
  auto note = [&](error_code it, size_t) { fault = it; };
  expire_after(kAnswering);
  net::async_write(stream_, net::buffer(request), note);
  wait();
  // what the service said before it closed is read all the same
  if (fault != boost::beast::error::timeout) {
    http::async_read_header(stream_, buffer_, parser, note);
    wait();
  }
  Got got;
  got.was_closed = fault && fault != boost::beast::error::timeout && !parser.got_some();
  // looked at here, as the library forgets of it where more than the head came with it
  got.is_too_long = fault == http::error::body_limit;
  if (fault) return got;
  if (parser.content_length().value_or(0) > kLarge) got.alone = std::make_shared<std::unique_lock<std::recursive_mutex>>(large);
  expire_after(kAnswering);
  http::async_read(stream_, buffer_, parser, note);
  wait();
  if (fault) return got;
  auto answer = parser.release();
  got.is_whole = is_used_ = true;
  got.goes_on = answer.keep_alive() && buffer_.size() == 0;
  got.status = int(answer.result_int());
  got.body = std::move(answer.body());
  used_ = Clock::now();
  return got;
}

Service::Service(int port, size_t kept) : port_(port), kept_(kept) {}
Service::~Service() = default;

std::unique_ptr<Connection> Service::take() {
  std::lock_guard<std::mutex> lock(mutex_);
  while (!connections_.empty()) {
    auto last = std::move(connections_.back());
    connections_.pop_back();
    if (last->stands()) return last;
  }
  return nullptr;
}

void Service::give_back(std::unique_ptr<Connection> connection) {
  std::lock_guard<std::mutex> lock(mutex_);
  if (connections_.size() < kept_) connections_.push_back(std::move(connection));
}

Upstream::Upstream(Service& service, std::string token) : service_(service), token_(std::move(token)) {}

Upstream::~Upstream() {
  if (connection_) service_.give_back(std::move(connection_));
}

// Has a connection that stands; it is tried for a while, as the service may be starting.
void Upstream::connect() {
  if (connection_ && connection_->stands()) return;
  connection_ = service_.take();
  auto until = Clock::now() + kRestart;
  while (!connection_) {
    auto made = std::make_unique<Connection>();
    if (made->open({service_.port_})) {
      connection_ = std::move(made);
    } else {
      if (Clock::now() >= until) throw Refusal(503, "the service is not there: nothing was done");
      std::this_thread::sleep_for(kPause);
    }
  }
}

Answer Upstream::ask(const std::string& method, const std::string& path, const json& body) {
  std::string request = method + " " + path + " HTTP/1.1\r\nHost: 127.0.0.1\r\nAuthorization: Bearer " + token_ + "\r\n";
  std::string text = body.is_null() ? "" : body.dump();
  if (method == "PUT" || method == "POST") request += "Content-Length: " + std::to_string(text.size()) + "\r\n";
  request += "\r\n" + text;
  bool is_change = method == "PUT" || method == "DELETE";
  connect();
  bool was_used = connection_->is_used();
  Connection::Got got = connection_->exchange(request, service_.large_);
  // The service may close a connection that was kept just as a request goes out on it: then no byte of an answer comes. It may as
  // well have done what it was asked and have been ended before it answered, and the two look alike. So only a reading is asked
  // again. A change is not, though its version lets it be done only once: the second answer would say that it was refused (409, or
  // 404 after a deletion) where the first had done it. That a connection which was closed before is not used at all, so that
  // this is rare, is looked at in `connect`.
  if (got.was_closed && was_used && !is_change) {
    connection_.reset();
    connect();
    got = connection_->exchange(request, service_.large_);
  }
  if (!got.goes_on) connection_.reset();
  if (got.is_too_long && !is_change) throw Refusal(413, "the answer is over 16 MiB: ask for a smaller area or a shorter time");
  json answer = got.is_whole ? json::parse(got.body, nullptr, false) : json();
  if (!answer.is_object())
    throw Refusal(504, is_change ? std::string("the service's answer was lost: ") + kOpen : "the service's answer was lost: ask again");
  // the file of tokens is read at the start of both programs
  if (got.status == 401) throw Refusal(503, "the service does not know the gateway's tokens: its operator has to start both with one token file");
  return {got.status, std::move(answer), std::move(got.alone)};
}

Place place_of(const std::string& url, const std::string& option) {
  for (bool is_v6 : {false, true}) {
    std::string front = is_v6 ? "http://[::1]:" : "http://127.0.0.1:", digits = url.compare(0, front.size(), front) == 0 ? url.substr(front.size()) : "";
    bool is_number = !digits.empty() && digits.size() <= 5 && digits.find_first_not_of("0123456789") == std::string::npos;
    if (int port = is_number ? std::stoi(digits) : 0; port >= 1 && port <= 65535) return {port, is_v6};
  }
  throw std::runtime_error(url + ": " + option + " takes http://127.0.0.1:PORT, an operator's port of the service");
}

std::optional<Said> read_within(std::chrono::milliseconds limit, const Place& place, const std::string& target, const std::string& token) {
  Connection connection(Clock::now() + limit);
  if (!connection.open(place)) return std::nullopt;
  std::recursive_mutex alone;
  std::string field = token.empty() ? "" : "Authorization: Bearer " + token + "\r\n";
  Connection::Got got = connection.exchange("GET " + target + " HTTP/1.1\r\nHost: " + place.host() + "\r\n" + field + "\r\n", alone);
  return got.is_whole ? std::make_optional(Said{got.status, std::move(got.body)}) : std::nullopt;
}

json read_operators(const Place& place, const std::string& target) {
  Connection connection;
  if (!connection.open(place)) throw Refusal(503, "the operator's port of the service is not there");
  std::recursive_mutex alone;
  Connection::Got got = connection.exchange("GET " + target + " HTTP/1.1\r\nHost: " + place.host() + "\r\n\r\n", alone);
  if (got.is_whole && got.status != 200) throw Refusal(502, got.body.substr(0, got.body.find('\n')));
  json answer = got.is_whole ? json::parse(got.body, nullptr, false) : json();
  if (!answer.is_object()) throw Refusal(502, "the answer of the operator's port was lost");
  return answer;
}
