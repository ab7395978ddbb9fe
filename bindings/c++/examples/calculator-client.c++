// calculator-client ADDRESS: plays with a calculator, and ends with status 0 if each result is right.
#include <math.h>
#include <functional>
#include <iostream>
#include <memory>
#include <vector>
#include <kj/debug.h>
#include "calculator.capnp.h"
#include "ez-rpc-of.h"

typedef Calculator::Expression Expression;
typedef Calculator::Operator Operator;
typedef std::function<void(Expression::Builder)> Fill;

Fill literal(double value) {
  return [=](Expression::Builder it) { it.setLiteral(value); };
}

Fill parameter(unsigned int index) {
  return [=](Expression::Builder it) { it.setParameter(index); };
}

Fill result(Calculator::Value::Client value) {
  auto shared = std::make_shared<Calculator::Value::Client>(value);
  return [=](Expression::Builder it) { it.setPreviousResult(*shared); };
}

Fill call(Calculator::Function::Client function, std::vector<Fill> params) {
  auto shared = std::make_shared<Calculator::Function::Client>(function);
  return [=](Expression::Builder it) {
    auto call = it.initCall();
    call.setFunction(*shared);
    auto places = call.initParams(params.size());
    for (size_t at = 0; at < params.size(); at++) params[at](places[at]);
  };
}

class Power final: public Calculator::Function::Server {
  // A function of the client, which the server calls back.

public:
  kj::Promise<void> call(CallContext context) override {
    auto params = context.getParams().getParams();
    KJ_REQUIRE(params.size() == 2, "two parameters are wanted");
    context.getResults().setValue(pow(params[0], params[1]));
    return kj::READY_NOW;
  }
};

struct Peer {
  Calculator::Client calculator;
  kj::WaitScope& waitScope;

  Calculator::Function::Client op(Operator op) {
    auto request = calculator.getOperatorRequest();
    request.setOp(op);
    return request.send().getFunc();
  }
  Calculator::Function::Client define(unsigned int paramCount, Fill body) {
    auto request = calculator.defFunctionRequest();
    request.setParamCount(paramCount);
    body(request.initBody());
    return request.send().getFunc();
  }
  Calculator::Value::Client evaluate(Fill expression) {
    auto request = calculator.evaluateRequest();
    expression(request.initExpression());
    return request.send().getValue();
  }
  // Nothing was waited for before this.
  void expect(double value, Calculator::Value::Client of) {
    auto found = of.readRequest().send().wait(waitScope).getValue();
    KJ_REQUIRE(found == value, "another value was expected", found, value);
  }
};

void play(Peer peer) {
  auto add = peer.op(Operator::ADD), subtract = peer.op(Operator::SUBTRACT), multiply = peer.op(Operator::MULTIPLY);
  peer.expect(123, peer.evaluate(literal(123)));
  peer.expect(101, peer.evaluate(call(subtract, {call(add, {literal(123), literal(45)}), literal(67)})));

  auto product = peer.evaluate(call(multiply, {literal(4), literal(6)}));
  auto first = peer.evaluate(call(add, {result(product), literal(3)}));
  auto second = peer.evaluate(call(add, {result(product), literal(5)}));
  peer.expect(27, first);
  peer.expect(29, second);

  auto f = peer.define(2, call(add, {call(multiply, {parameter(0), literal(100)}), parameter(1)}));
  auto g = peer.define(1, call(multiply, {call(f, {parameter(0), call(add, {parameter(0), literal(1)})}), literal(2)}));
  peer.expect(1234, peer.evaluate(call(f, {literal(12), literal(34)})));
  peer.expect(4244, peer.evaluate(call(g, {literal(21)})));

  Calculator::Function::Client power = kj::heap<Power>();
  peer.expect(512, peer.evaluate(call(power, {literal(2), call(add, {literal(4), literal(5)})})));
}

int main(int words, char** word) {
  if (words != 2) {
    std::cerr << "usage: calculator-client ADDRESS" << std::endl;
    return 2;
  }
  EzRpcClient client(word[1]);
  KJ_IF_MAYBE(wrong, kj::runCatchingExceptions([&]() { play({client.getMain<Calculator>(), client.getWaitScope()}); })) {
    std::cerr << kj::str(*wrong).cStr() << std::endl;
    return 1;
  }
  std::cout << "all results are right" << std::endl;
  return 0;
}
