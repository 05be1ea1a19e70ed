#include "server.h"

#include <array>
#include <chrono>
#include <iostream>
#include <memory>
#include <set>

#include <boost/asio/basic_socket_acceptor.hpp>
#include <boost/asio/executor_work_guard.hpp>
#include <boost/asio/generic/stream_protocol.hpp>
#include <boost/asio/io_context.hpp>
#include <boost/asio/post.hpp>
#include <boost/asio/signal_set.hpp>
#include <boost/asio/steady_timer.hpp>
#include <boost/asio/thread_pool.hpp>
#include <boost/asio/write.hpp>
#include <netinet/tcp.h>
#include <nlohmann/json.hpp>
#include <poll.h>
#include <strings.h>
#include <sys/resource.h>

#include "incoming.h"
#include "refusal.h"
#include "shares.h"

namespace net = boost::asio;
using boost::system::error_code;

namespace {

using Protocol = net::generic::stream_protocol;
using Socket = net::basic_stream_socket<Protocol, net::io_context::executor_type>;
using Acceptor = net::basic_socket_acceptor<Protocol, net::io_context::executor_type>;
using Clock = std::chrono::steady_clock;
using std::chrono::seconds;

// How long a client may send nothing between requests; for each piece of a request, and from its first byte to its last; and for a
// response. The proxies close a connection that was idle for 50 seconds.
constexpr seconds kIdle(60), kPiece(10), kWhole(30), kTaking(60);
// How long it may send nothing if few connections are left for others.
constexpr seconds kIdleAmongMany(5);
// The most requests on one connection.
constexpr size_t kRequests = 100;
// What a client still sends after its answer is thrown away, so much and so long.
constexpr seconds kDraining(2);
constexpr size_t kDrained = 1 << 20;
constexpr std::chrono::milliseconds kAgain(100);
// How often a client that waits is looked for.
constexpr seconds kLooking(1);
const std::string kGoOn = "HTTP/1.1 100 Continue\r\n\r\n";
// Threads that do what is asked; of a supplier so many requests at once, and so many more that wait.
constexpr size_t kWorkers = 16, kAtOnce = 4, kWaiting = 100;
// Descriptors that are no client's: of the threads, of the connections to the service and of the program.
constexpr size_t kOtherDescriptors = 200;

const char* reason_of(int status) {
  switch (status) {
    case 200: return "OK";
    case 201: return "Created";
    case 400: return "Bad Request";
    case 401: return "Unauthorized";
    case 403: return "Forbidden";
    case 404: return "Not Found";
    case 405: return "Method Not Allowed";
    case 408: return "Request Timeout";
    case 409: return "Conflict";
    case 411: return "Length Required";
    case 412: return "Precondition Failed";
    case 413: return "Content Too Large";
    case 414: return "URI Too Long";
    case 415: return "Unsupported Media Type";
    case 429: return "Too Many Requests";
    case 500: return "Internal Server Error";
    case 502: return "Bad Gateway";
    case 503: return "Service Unavailable";
    case 504: return "Gateway Timeout";
    default: return "Other";
  }
}

Reply reply_of(const Refusal& refusal) {
  nlohmann::json body = {{"message", refusal.what()}};
  return {refusal.status, body.dump(-1, ' ', false, nlohmann::json::error_handler_t::replace), refusal.allow};
}

// Returns the bytes of a response; unless `stays`, it is the last one on its connection.
std::string text_of(const Reply& reply, bool with_body, bool stays) {
  std::string text = "HTTP/1.1 " + std::to_string(reply.status) + " " + reason_of(reply.status) + "\r\nContent-Type: " + reply.type + "\r\n" + reply.fields;
  if (!reply.allow.empty()) text += "Allow: " + reply.allow + "\r\n";
  if (reply.status == 401) text += "WWW-Authenticate: Bearer\r\n";
  text += "Content-Length: " + std::to_string(reply.body.size()) + (stays ? "\r\n\r\n" : "\r\nConnection: close\r\n\r\n");
  return with_body ? text + reply.body : text;
}

class Session;

// What all connections share. All but the workers is of one thread.
class Door {
 public:
  Door(int listening, size_t connections, const Admit& admit)
      : admit(admit), acceptor_(io, Protocol(AF_UNSPEC, 0), listening), again_(io), ends_(io, SIGTERM, SIGINT), most_(connections) {}

  void run();
  void forget(Session* session);
  // Returns true if three of four connections are taken.
  bool is_crowded() const { return sessions_.size() > most_ / 4 * 3; }
  // Returns true if a connection may wait for another request: if one is free for others.
  bool may_keep() const { return !is_ending_ && sessions_.size() < most_; }
  // Notes that a connection waits for another request since then, or does so no longer. If the last connection is taken, the one that
  // has waited longest is closed.
  void rest(Clock::time_point since, Session* session) { idle_.emplace(since, session); }
  void wake(Clock::time_point since, Session* session) { idle_.erase({since, session}); }

  const Admit& admit;
  net::io_context io{1};
  net::thread_pool workers{kWorkers};
  Shares shares{kAtOnce, kWaiting};

 private:
  void accept();
  void welcome(Socket socket);
  void end();

  Acceptor acceptor_;
  net::steady_timer again_;
  net::signal_set ends_;
  size_t most_;
  std::set<Session*> sessions_;
  std::set<std::pair<Clock::time_point, Session*>> idle_;
  bool is_accepting_ = false, is_ending_ = false;
};

// A connection. For each request: a head, a body if one is wanted, a response.
//
// What follows a request is taken for the next one only if the body of the first was read to its end. Otherwise the connection closes, so
// that no part of a body is ever taken for a request, which a proxy may have sent for somebody else.
class Session : public std::enable_shared_from_this<Session> {
 public:
  Session(Door& door, Socket socket) : door_(door), socket_(std::move(socket)), timer_(door.io) {}

  // Waits for a request.
  void start();
  // Ends it if nothing was begun for it.
  void stop() {
    if (stage_ == Stage::head || stage_ == Stage::done) end();
  }
  // Closes the connection.
  void end();

 private:
  enum class Stage { head, waits, body, work, answer, done, ended };
  using Step = void (Session::*)();

  void begin();
  void limit(Clock::time_point until);
  void receive(Step next, Clock::time_point until);
  void cut(const error_code& fault);
  void look_for_head();
  void let_in();
  void watch();
  void look_for_client(Clock::time_point at);
  void take_turn();
  void look_for_body();
  void say_go_on();
  void work();
  Reply done();
  bool may_stay() const;
  void answer(const Reply& reply);
  void go_on();
  void finish();
  void tell(int status) const;
  void drain();
  void leave();

  Door& door_;
  Socket socket_;
  net::steady_timer timer_;
  Stage stage_ = Stage::head;
  std::array<char, 8192> piece_;
  Incoming incoming_;
  std::string sent_;
  size_t requests_ = 0, drained_ = 0;
  Clock::time_point rested_, began_ = Clock::now(), ends_;
  Clock::duration left_{};
  Head head_;
  Framing framing_;
  Note note_;
  Task task_;
  bool holds_turn_ = false, is_late_ = false, is_watched_ = false;
  bool is_read_ = false;      // the present request, to the end of its body
  bool awaits_word_ = false;  // the client sends its body after an interim response
  bool stays_ = false;        // for another request
  std::atomic<bool> is_gone_{false};
};

// ---- receiving

// From then on, what is waited for at the socket is given up.
void Session::limit(Clock::time_point until) {
  is_late_ = false;
  timer_.expires_at(until);
  timer_.async_wait([self = shared_from_this()](error_code fault) {
    if (fault || self->stage_ == Stage::ended || Clock::now() < self->timer_.expiry()) return;
    self->is_late_ = true;
    self->socket_.cancel(fault);
  });
}

void Session::start() {
  rested_ = Clock::now();
  if (requests_ > 0) door_.rest(rested_, this);
  receive(&Session::look_for_head, rested_ + (door_.is_crowded() ? kIdleAmongMany : kIdle));
}

void Session::begin() {
  began_ = Clock::now();
  ends_ = began_ + kWhole;
}

void Session::receive(Step next, Clock::time_point until) {
  limit(until);
  socket_.async_read_some(net::buffer(piece_), [self = shared_from_this(), next](error_code fault, size_t count) {
    if (self->stage_ == Stage::ended) return;
    if (fault) return self->cut(fault);
    if (self->stage_ == Stage::head && self->incoming_.is_empty()) {
      self->door_.wake(self->rested_, self.get());
      self->begin();
    }
    if (self->stage_ == Stage::done)
      self->drained_ += count;
    else
      self->incoming_.add(self->piece_.data(), count);
    (self.get()->*next)();
  });
}

// The input has ended, or does not go on.
void Session::cut(const error_code& fault) {
  bool has_begun = !incoming_.is_empty() || stage_ == Stage::body;
  if (!has_begun || stage_ == Stage::done || (!is_late_ && fault != net::error::eof)) return end();
  if (stage_ == Stage::body) return answer(reply_of(Refusal(400, "the body did not come whole")));
  answer(reply_of(is_late_ ? Refusal(408, "the head did not come in time") : Refusal(400, "the head did not come whole")));
}

void Session::look_for_head() try {
  auto head = incoming_.take_head();
  if (!head) return receive(&Session::look_for_head, std::min(ends_, Clock::now() + kPiece));
  head_ = std::move(*head);
  framing_ = framing_of(head_);
  is_read_ = !framing_.has_body();
  let_in();
} catch (const Refusal& refusal) {
  answer(reply_of(refusal));
} catch (const std::exception&) {
  answer(reply_of(Refusal(500, "the gateway failed: nothing was done")));
}

void Session::let_in() {
  task_ = door_.admit(head_, note_);
  awaits_word_ = !head_.is_old && strcasecmp(head_.value("Expect").c_str(), "100-continue") == 0;
  stage_ = Stage::waits;
  left_ = ends_ - Clock::now();
  watch();
  look_for_client(began_ + kLooking);
  if (!door_.shares.enter(task_.supplier, [self = shared_from_this()] { self->take_turn(); }))
    throw Refusal(429, "over 100 requests of the supplier wait already: ask again later, and not so many at once");
}

// Notices a client that is gone: one that has reset its connection, and at a socket of Unix one that has closed it.
void Session::watch() {
  if (is_watched_) return;
  is_watched_ = true;
  socket_.async_wait(Socket::wait_error, [self = shared_from_this()](error_code fault) {
    self->is_watched_ = false;
    if (fault || self->stage_ == Stage::ended) return;
    pollfd state{self->socket_.native_handle(), 0, 0};
    if (poll(&state, 1, 0) != 1 || !(state.revents & (POLLERR | POLLHUP))) return;
    self->is_gone_ = true;
    if (self->stage_ == Stage::waits) self->end();
  });
}

// At a port, one that has closed its connection looks as one that has shut its own side alone and waits for its answer, until it is
// sent something: then it resets the connection. So it is sent a word that a client of HTTP/1.1 passes over.
void Session::look_for_client(Clock::time_point at) {
  timer_.expires_at(at);
  timer_.async_wait([self = shared_from_this()](error_code fault) {
    bool still_waits = self->stage_ == Stage::waits || self->stage_ == Stage::work;
    if (fault || !still_waits || Clock::now() < self->timer_.expiry()) return;
    pollfd state{self->socket_.native_handle(), POLLRDHUP, 0};
    if (poll(&state, 1, 0) != 1) return self->look_for_client(Clock::now() + kLooking);
    if (!self->head_.is_old) send(state.fd, kGoOn.data(), kGoOn.size(), MSG_DONTWAIT | MSG_NOSIGNAL);
  });
}

// ---- doing what is asked

void Session::take_turn() {
  holds_turn_ = true;
  // one that has gone while it waited leaves its turn to the next
  if (stage_ == Stage::ended) return leave();
  stage_ = Stage::body;
  // that it waited is no fault of the client
  ends_ = Clock::now() + left_;
  task_.wants_body ? look_for_body() : work();
}

void Session::look_for_body() try {
  is_read_ = incoming_.take_body(framing_);
  if (is_read_) return work();
  if (awaits_word_) return say_go_on();
  receive(&Session::look_for_body, std::min(ends_, Clock::now() + kPiece));
} catch (const Refusal& refusal) {
  answer(reply_of(refusal));
}

void Session::say_go_on() {
  awaits_word_ = false;
  limit(std::min(ends_, Clock::now() + kPiece));
  net::async_write(socket_, net::buffer(kGoOn), [self = shared_from_this()](error_code fault, size_t) {
    fault ? self->end() : self->look_for_body();
  });
}

Reply Session::done() try {
  return task_.run(incoming_.body, is_gone_);
} catch (const Refusal& refusal) {
  return reply_of(refusal);
} catch (const std::exception&) {
  return reply_of(Refusal(500, std::string("the gateway failed: ") + kOpen));
}

void Session::work() {
  stage_ = Stage::work;
  look_for_client(began_ + kLooking);
  net::post(door_.workers, [self = shared_from_this(), guard = net::make_work_guard(door_.io)]() mutable {
    Reply reply = self->done();
    net::io_context& io = self->door_.io;
    // with the last handle, so that a connection ends on the one thread
    net::post(io, [self = std::move(self), reply = std::move(reply)] { self->answer(reply); });
  });
}

// ---- answering

bool Session::may_stay() const {
  return is_read_ && !head_.is_old && !head_.asks_to_close() && requests_ < kRequests && door_.may_keep();
}

void Session::answer(const Reply& reply) {
  tell(reply.status);
  if (is_gone_) return end();
  stage_ = Stage::answer;
  requests_++;
  stays_ = may_stay();
  std::string().swap(incoming_.body);
  if (!stays_) incoming_ = Incoming();
  sent_ = text_of(reply, head_.method != "HEAD", stays_);
  limit(Clock::now() + kTaking);
  net::async_write(socket_, net::buffer(sent_), [self = shared_from_this()](error_code fault, size_t) {
    std::string().swap(self->sent_);
    self->leave();
    if (fault) return self->end();
    // meanwhile the last connection may have been taken, or the gateway stops
    self->stays_ && self->door_.may_keep() ? self->go_on() : self->finish();
  });
}

// Turns to the next request, of which some may have arrived already.
void Session::go_on() {
  stage_ = Stage::head;
  head_ = Head();
  framing_ = Framing();
  note_ = Note();
  task_ = Task();
  is_read_ = false;
  if (incoming_.is_empty()) return start();
  begin();
  look_for_head();
}

// Ends the response. The client reads it whole, as it is not reset by what it still sends.
void Session::finish() {
  stage_ = Stage::done;
  error_code ignored;
  socket_.shutdown(Socket::shutdown_send, ignored);
  ends_ = Clock::now() + kDraining;
  drain();
}

void Session::drain() {
  if (drained_ > kDrained) return end();
  receive(&Session::drain, ends_);
}

void Session::tell(int status) const {
  std::chrono::duration<double, std::milli> spent = Clock::now() - began_;
  const char* method = head_.method.empty() ? "-" : head_.method.c_str();
  char line[200];
  std::snprintf(line, sizeof line, "gateway: %.64s %.7s %.80s %d %.1f ms\n", note_.uss.c_str(), method, note_.route.c_str(), status, spent.count());
  std::cerr << line;
}

void Session::leave() {
  if (holds_turn_) door_.shares.leave(task_.supplier);
  holds_turn_ = false;
}

void Session::end() {
  if (stage_ == Stage::ended) return;
  stage_ = Stage::ended;
  door_.wake(rested_, this);
  leave();
  timer_.cancel();
  error_code ignored;
  socket_.close(ignored);
  door_.forget(this);
}

// ---- all connections

void Door::accept() {
  if (is_accepting_ || is_ending_ || sessions_.size() >= most_) return;
  is_accepting_ = true;
  acceptor_.async_accept([this](error_code fault, Socket socket) {
    is_accepting_ = false;
    if (is_ending_) return;
    if (fault) {
      // no descriptor is free, or the client is gone already
      again_.expires_after(kAgain);
      return again_.async_wait([this](error_code) { accept(); });
    }
    welcome(std::move(socket));
    accept();
  });
}

void Door::welcome(Socket socket) {
  int yes = 1;
  setsockopt(socket.native_handle(), IPPROTO_TCP, TCP_NODELAY, &yes, sizeof yes);
  auto session = std::make_shared<Session>(*this, std::move(socket));
  sessions_.insert(session.get());
  session->start();
  if (sessions_.size() >= most_ && !idle_.empty()) idle_.begin()->second->end();
}

void Door::forget(Session* session) {
  sessions_.erase(session);
  accept();
}

void Door::end() {
  is_ending_ = true;
  acceptor_.close();
  again_.cancel();
  for (Session* it : std::set<Session*>(sessions_)) it->stop();
}

void Door::run() {
  ends_.async_wait([this](error_code fault, int) {
    if (!fault) end();
  });
  accept();
  io.run();
  workers.join();
}

// As many connections as there are descriptors for.
size_t within_descriptors(size_t connections) {
  rlimit limit{};
  getrlimit(RLIMIT_NOFILE, &limit);
  rlim_t wanted = connections + kOtherDescriptors;
  if (limit.rlim_cur < wanted) {
    limit.rlim_cur = std::min(wanted, limit.rlim_max);
    setrlimit(RLIMIT_NOFILE, &limit);
    getrlimit(RLIMIT_NOFILE, &limit);
  }
  return limit.rlim_cur >= wanted ? connections : std::max<rlim_t>(limit.rlim_cur, kOtherDescriptors + 1) - kOtherDescriptors;
}

}  // namespace

void serve(int listening, size_t connections, const Admit& admit) { Door(listening, within_descriptors(connections), admit).run(); }
