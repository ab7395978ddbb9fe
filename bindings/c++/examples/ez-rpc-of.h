// The server and the client of a connection: those of Lovendak, or, to compare, those of libcapnp.
#pragma once
#ifdef OVER_LIBCAPNP
#include <capnp/ez-rpc.h>
using capnp::EzRpcClient;
using capnp::EzRpcServer;
#else
#include "lovendak/ez-rpc.h"
using lovendak::EzRpcClient;
using lovendak::EzRpcServer;
#endif
