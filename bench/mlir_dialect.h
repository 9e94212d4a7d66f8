// The operations that the benchmark has of its own over MLIR.
#pragma once
#include "mlir/IR/Builders.h"
#include "mlir/IR/Dialect.h"
#include "mlir/IR/OpDefinition.h"
#include "mlir/Interfaces/SideEffectInterfaces.h"
#include "mlir/Transforms/InliningUtils.h"

namespace bench {

// An operation without effect, which goes where nothing uses its result.
class StepOp
    : public mlir::Op<StepOp, mlir::OpTrait::ZeroRegions, mlir::OpTrait::OneResult,
                      mlir::OpTrait::OneTypedResult<mlir::Type>::Impl, mlir::OpTrait::ZeroSuccessors,
                      mlir::OpTrait::VariadicOperands, mlir::MemoryEffectOpInterface::Trait> {
public:
  using Op::Op;
  static llvm::StringRef getOperationName() { return "bench.step"; }
  static llvm::ArrayRef<llvm::StringRef> getAttributeNames() { return {}; }
  void getEffects(llvm::SmallVectorImpl<mlir::MemoryEffects::EffectInstance> &) {}
  static void build(mlir::OpBuilder &, mlir::OperationState &state, mlir::Type type, mlir::ValueRange operands) {
    state.addTypes(type);
    state.addOperands(operands);
  }
};

// An operation of which nothing is known, and which therefore stays.
class KeepOp : public mlir::Op<KeepOp, mlir::OpTrait::ZeroRegions, mlir::OpTrait::VariadicResults,
                               mlir::OpTrait::ZeroSuccessors, mlir::OpTrait::VariadicOperands> {
public:
  using Op::Op;
  static llvm::StringRef getOperationName() { return "bench.keep"; }
  static llvm::ArrayRef<llvm::StringRef> getAttributeNames() { return {}; }
  static void build(mlir::OpBuilder &, mlir::OperationState &state, mlir::TypeRange types, mlir::ValueRange operands) {
    state.addTypes(types);
    state.addOperands(operands);
  }
};

// An operation that is converted.
class ReferenceOp : public mlir::Op<ReferenceOp, mlir::OpTrait::ZeroRegions, mlir::OpTrait::OneResult,
                                    mlir::OpTrait::ZeroSuccessors, mlir::OpTrait::VariadicOperands> {
public:
  using Op::Op;
  static llvm::StringRef getOperationName() { return "bench.reference"; }
  static llvm::ArrayRef<llvm::StringRef> getAttributeNames() { return {}; }
  static void build(mlir::OpBuilder &, mlir::OperationState &state, mlir::Type type, mlir::ValueRange operands) {
    state.addTypes(type);
    state.addOperands(operands);
  }
};

// All operations may be inlined.
struct BenchInliner : mlir::DialectInlinerInterface {
  using DialectInlinerInterface::DialectInlinerInterface;
  bool isLegalToInline(mlir::Operation *, mlir::Region *, bool, mlir::IRMapping &) const final { return true; }
};

class BenchDialect : public mlir::Dialect {
public:
  explicit BenchDialect(mlir::MLIRContext *context)
      : Dialect(getDialectNamespace(), context, mlir::TypeID::get<BenchDialect>()) {
    addOperations<StepOp, KeepOp, ReferenceOp>();
    addInterfaces<BenchInliner>();
  }
  static llvm::StringRef getDialectNamespace() { return "bench"; }
};

} // namespace bench
