// What a call's results will have.
#pragma once
#include <vector>
#include "client.h"

namespace lovendak {

class VatPipeline final: public capnp::PipelineHook, public kj::Refcounted {
  // Owns its question, and a capability for each path of the results that was asked for.

public:
  explicit VatPipeline(kj::Own<Question> question): question(kj::mv(question)) {}

  kj::Own<capnp::PipelineHook> addRef() override { return kj::addRef(*this); }
  kj::Own<capnp::ClientHook> getPipelinedCap(kj::ArrayPtr<const capnp::PipelineOp> ops) override;

private:
  typedef std::vector<uint16_t> Path;

  kj::Own<Question> question;
  std::map<Path, kj::Own<capnp::ClientHook>> clients;

  kj::Own<capnp::ClientHook> newClient(const Path& path);
};

}  // namespace lovendak
