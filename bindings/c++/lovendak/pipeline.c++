#include "pipeline.h"
#include "faults.h"

namespace lovendak {
using namespace capnp;

kj::Own<ClientHook> VatPipeline::getPipelinedCap(kj::ArrayPtr<const PipelineOp> ops) {
  Path path;
  for (auto& op: ops) {
    if (op.type == PipelineOp::GET_POINTER_FIELD) path.push_back(op.pointerIndex);
  }
  auto known = clients.find(path);
  if (known != clients.end()) return known->second->addRef();
  KJ_IF_MAYBE(response, question->response) {
    return (*response)->results().getPipelinedCap(ops);
  }
  KJ_IF_MAYBE(exception, question->exception) {
    return newBrokenCap(kj::cp(*exception));
  }
  auto client = newClient(path);
  auto result = client->addRef();
  clients.emplace(kj::mv(path), kj::mv(client));
  return result;
}

kj::Own<ClientHook> VatPipeline::newClient(const Path& path) {
  static const uint16_t NOWHERE[1] = {0};
  auto& vat = *question->vat;
  uint64_t reference;
  auto code = lovendak_field(&vat.handle, question->number, path.empty() ? NOWHERE : path.data(), path.size(), &reference);
  if (code == LOVENDAK_DOWN) return newBrokenCap(vat.whyDown());
  if (code != LOVENDAK_OK) return newBrokenCap(refusal(code));
  auto client = kj::refcounted<VatClient>(vat, reference, kj::addRef(*question));
  vat.follow(*client);
  return kj::mv(client);
}

}  // namespace lovendak
