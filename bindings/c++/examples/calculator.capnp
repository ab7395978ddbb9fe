# The calculator of Cap'n Proto's samples: expressions that the server evaluates, with functions of the server and of the client.
@0x85150b117366d14b;

interface Calculator {
  evaluate @0 (expression :Expression) -> (value :Value);
  # The value as an object: it may be used in further expressions before it has come.

  struct Expression {
    union {
      literal @0 :Float64;
      previousResult @1 :Value;
      parameter @2 :UInt32;

      call :group {
        function @3 :Function;
        params @4 :List(Expression);
      }
    }
  }

  interface Value {
    read @0 () -> (value :Float64);
  }

  defFunction @1 (paramCount :Int32, body :Expression) -> (func :Function);
  # A function of so many parameters, which the body names by `parameter`.

  interface Function {
    call @0 (params :List(Float64)) -> (value :Float64);
  }

  getOperator @2 (op :Operator) -> (func :Function);

  enum Operator {
    add @0;
    subtract @1;
    multiply @2;
    divide @3;
  }
}
