// calculator-server ADDRESS: serves a calculator. The classes below are as for libcapnp.
#include <iostream>
#include <kj/async.h>
#include <kj/debug.h>
#include "calculator.capnp.h"
#include "ez-rpc-of.h"

typedef Calculator::Expression Expression;
typedef capnp::List<double> Numbers;

kj::Promise<double> evaluate(Expression::Reader expression, Numbers::Reader params = Numbers::Reader());

kj::Promise<double> evaluateCall(Expression::Call::Reader call, Numbers::Reader params) {
  auto function = call.getFunction();
  auto given = KJ_MAP(param, call.getParams()) { return evaluate(param, params); };
  return kj::joinPromises(kj::mv(given)).then([KJ_CPCAP(function)](kj::Array<double>&& numbers) mutable {
    auto request = function.callRequest();
    request.setParams(numbers);
    return request.send().then([](capnp::Response<Calculator::Function::CallResults>&& result) { return result.getValue(); });
  });
}

kj::Promise<double> evaluate(Expression::Reader expression, Numbers::Reader params) {
  switch (expression.which()) {
    case Expression::LITERAL:
      return expression.getLiteral();
    case Expression::PREVIOUS_RESULT:
      return expression.getPreviousResult().readRequest().send().then(
          [](capnp::Response<Calculator::Value::ReadResults>&& result) { return result.getValue(); });
    case Expression::PARAMETER:
      KJ_REQUIRE(expression.getParameter() < params.size(), "there is no such parameter");
      return params[expression.getParameter()];
    case Expression::CALL:
      return evaluateCall(expression.getCall(), params);
  }
  KJ_FAIL_REQUIRE("an expression of a kind that this server does not know");
}

class Value final: public Calculator::Value::Server {
public:
  explicit Value(double value): value(value) {}
  kj::Promise<void> read(ReadContext context) override {
    context.getResults().setValue(value);
    return kj::READY_NOW;
  }

private:
  double value;
};

class Function final: public Calculator::Function::Server {
public:
  Function(unsigned int paramCount, Expression::Reader given): paramCount(paramCount) { body.setRoot(given); }
  kj::Promise<void> call(CallContext context) override {
    auto params = context.getParams().getParams();
    KJ_REQUIRE(params.size() == paramCount, "another number of parameters is wanted");
    return evaluate(body.getRoot<Expression>(), params).then([KJ_CPCAP(context)](double value) mutable {
      context.getResults().setValue(value);
    });
  }

private:
  unsigned int paramCount;
  capnp::MallocMessageBuilder body;
};

class OperatorFunction final: public Calculator::Function::Server {
public:
  explicit OperatorFunction(Calculator::Operator op): op(op) {}
  kj::Promise<void> call(CallContext context) override {
    auto params = context.getParams().getParams();
    KJ_REQUIRE(params.size() == 2, "two parameters are wanted");
    context.getResults().setValue(of(params[0], params[1]));
    return kj::READY_NOW;
  }

private:
  Calculator::Operator op;

  double of(double left, double right) {
    switch (op) {
      case Calculator::Operator::ADD: return left + right;
      case Calculator::Operator::SUBTRACT: return left - right;
      case Calculator::Operator::MULTIPLY: return left * right;
      case Calculator::Operator::DIVIDE: return left / right;
    }
    KJ_FAIL_REQUIRE("an operator that this server does not know");
  }
};

class CalculatorServer final: public Calculator::Server {
public:
  kj::Promise<void> evaluate(EvaluateContext context) override {
    return ::evaluate(context.getParams().getExpression()).then([KJ_CPCAP(context)](double value) mutable {
      context.getResults().setValue(kj::heap<Value>(value));
    });
  }
  kj::Promise<void> defFunction(DefFunctionContext context) override {
    auto params = context.getParams();
    context.getResults().setFunc(kj::heap<Function>(params.getParamCount(), params.getBody()));
    return kj::READY_NOW;
  }
  kj::Promise<void> getOperator(GetOperatorContext context) override {
    context.getResults().setFunc(kj::heap<OperatorFunction>(context.getParams().getOp()));
    return kj::READY_NOW;
  }
};

int main(int words, char** word) {
  if (words != 2) {
    std::cerr << "usage: calculator-server ADDRESS" << std::endl;
    return 2;
  }
  EzRpcServer server(kj::heap<CalculatorServer>(), word[1]);
  auto& waitScope = server.getWaitScope();
  std::cout << server.getPort().wait(waitScope) << std::endl;
  kj::NEVER_DONE.wait(waitScope);
}
