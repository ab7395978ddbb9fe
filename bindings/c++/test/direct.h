// Before each of libcapnp's own tests that is built over the classes straight on the stream: these stand for libcapnp's.
#pragma once
#include <capnp/ez-rpc.h>
#include <capnp/rpc-twoparty.h>
#include "lovendak/ez-rpc.h"
#include "lovendak/two-party.h"
#define TwoPartyClient ::lovendak::TwoPartyClient
#define TwoPartyServer ::lovendak::TwoPartyServer
#define EzRpcClient ::lovendak::EzRpcClient
#define EzRpcServer ::lovendak::EzRpcServer
