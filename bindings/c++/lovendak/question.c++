#include "question.h"

namespace lovendak {

Question::Question(Vat& vat, uint64_t number): vat(kj::addRef(vat)), number(number), promise(nullptr) {
  auto paf = kj::newPromiseAndFulfiller<kj::Own<VatResponse>>();
  promise = kj::mv(paf.promise);
  fulfiller = kj::mv(paf.fulfiller);
  vat.questions[number] = this;
}

Question::~Question() noexcept(false) {
  vat->questions.erase(number);
  if (vat->isDown()) return;
  lovendak_finish(&vat->handle, number);
  vat->commanded();
}

void Question::answered(kj::Own<VatResponse> given) {
  fulfiller->fulfill(kj::addRef(*given));
  response = kj::mv(given);
}

void Question::failed(kj::Exception&& given) {
  fulfiller->reject(kj::cp(given));
  exception = kj::mv(given);
}

}  // namespace lovendak
