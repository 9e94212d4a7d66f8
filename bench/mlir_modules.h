// The modules that are measured over MLIR: README.md says what stands in each.
#pragma once
#include "mlir_dialect.h"

#include "mlir/Dialect/Arith/IR/Arith.h"
#include "mlir/Dialect/ControlFlow/IR/ControlFlowOps.h"
#include "mlir/Dialect/Func/IR/FuncOps.h"
#include "mlir/IR/BuiltinOps.h"
#include <cstdint>
#include <string>

namespace bench {

// Whether each operation stands behind the one that was made before it, or before that.
enum class Order { Along, Against };

class Modules {
  mlir::MLIRContext &context;
  mlir::OpBuilder builder;
  mlir::Location place;
  mlir::ModuleOp root;
  Order order = Order::Along;

  void put(mlir::Operation *op) {
    if (order == Order::Along)
      root.getBody()->push_back(op);
    else
      root.getBody()->push_front(op);
  }

  mlir::Value step(mlir::ValueRange operands) {
    auto op = builder.create<StepOp>(place, builder.getNoneType(), operands);
    put(op);
    return op->getResult(0);
  }

  void keep(mlir::ValueRange operands) { put(builder.create<KeepOp>(place, mlir::TypeRange(), operands)); }

  mlir::func::FuncOp function(const std::string &name) {
    auto func = mlir::func::FuncOp::create(place, name, builder.getFunctionType({}, {}));
    func.addEntryBlock();
    put(func);
    return func;
  }

  mlir::func::FuncOp privateFunction(const std::string &name) {
    auto func = function(name);
    func.setPrivate();
    return func;
  }

  void use(mlir::Operation *op, uint64_t number) {
    op->setAttr("uses", mlir::FlatSymbolRefAttr::get(&context, name(number)));
  }

  // Operations in the body of a function, each of which uses a name.
  void addUsers(mlir::func::FuncOp func, uint64_t first, uint64_t end) {
    for (uint64_t number = first; number < end; number++) {
      auto user = builder.create<KeepOp>(place, mlir::TypeRange(), mlir::ValueRange());
      use(user, number);
      func.getBody().front().push_back(user);
    }
  }

  mlir::Value chain(uint64_t number) {
    mlir::Value last = step({});
    for (uint64_t i = 1; i < number; i++)
      last = step(last);
    return last;
  }

  mlir::Value constant(int64_t number) {
    auto op = builder.create<mlir::arith::ConstantOp>(place, builder.getI64IntegerAttr(number));
    put(op);
    return op;
  }

  void addSums(mlir::Value last, mlir::Value added, uint64_t number) {
    for (uint64_t i = 0; i < number; i++) {
      auto sum = builder.create<mlir::arith::AddIOp>(place, last, added);
      put(sum);
      last = sum;
    }
    keep(last);
  }

  // The function of number 0, which hands on its argument through ten steps.
  mlir::func::FuncOp callee() {
    auto none = builder.getNoneType();
    auto func = mlir::func::FuncOp::create(place, name(0), builder.getFunctionType(none, none));
    put(func);
    builder.setInsertionPointToEnd(func.addEntryBlock());
    mlir::Value last = func.getArgument(0);
    for (int i = 0; i < 10; i++)
      last = builder.create<StepOp>(place, none, last);
    builder.create<mlir::func::ReturnOp>(place, last);
    builder.clearInsertionPoint();
    return func;
  }

  // A function with so many calls, each with what the one before handed back, and what uses the last.
  void addCaller(mlir::func::FuncOp called, uint64_t number, uint64_t calls) {
    builder.setInsertionPointToEnd(&function(name(number)).getBody().front());
    mlir::Value last = builder.create<StepOp>(place, builder.getNoneType(), mlir::ValueRange());
    for (uint64_t i = 0; i < calls; i++)
      last = builder.create<mlir::func::CallOp>(place, called, last).getResult(0);
    builder.create<KeepOp>(place, mlir::TypeRange(), last);
    builder.clearInsertionPoint();
  }

public:
  // Two values, of which each can come in place of the other.
  mlir::Value first, second;

  explicit Modules(mlir::MLIRContext &context)
      : context(context), builder(&context), place(builder.getUnknownLoc()) {}

  static std::string name(uint64_t number) { return "f" + std::to_string(number); }

  void begin(Order asked) {
    order = asked;
    root = mlir::ModuleOp::create(place, llvm::StringRef("root"));
  }

  mlir::ModuleOp get() { return root; }

  void functions(uint64_t number) {
    auto type = builder.getFunctionType({}, {});
    for (uint64_t i = 0; i < number; i++) {
      auto func = mlir::func::FuncOp::create(place, name(i), type);
      func.addEntryBlock();
      root.push_back(func);
    }
  }

  void bare(uint64_t number) {
    mlir::OperationName kind("bench.bare", &context);
    for (uint64_t i = 0; i < number; i++) {
      mlir::OperationState state(place, kind);
      state.addRegion()->push_back(new mlir::Block);
      root.push_back(mlir::Operation::create(state));
    }
  }

  void chains(uint64_t number) {
    keep(chain(number));
    chain(number);
  }

  void blocks(uint64_t number) {
    auto func = function(name(0));
    mlir::Block *entry = &func.getBody().front(), *last = entry;
    auto none = builder.getNoneType();
    builder.setInsertionPointToEnd(entry);
    mlir::Value kept = builder.create<StepOp>(place, none, mlir::ValueRange());
    mlir::Value dead = builder.create<StepOp>(place, none, mlir::ValueRange());
    for (uint64_t i = 0; i < number; i++) {
      auto *block = new mlir::Block;
      block->insertAfter(order == Order::Along ? last : entry);
      builder.create<mlir::cf::BranchOp>(place, block);
      builder.setInsertionPointToEnd(block);
      kept = builder.create<StepOp>(place, none, kept);
      dead = builder.create<StepOp>(place, none, dead);
      last = block;
    }
    builder.create<KeepOp>(place, mlir::TypeRange(), kept);
    builder.clearInsertionPoint();
  }

  void sums(uint64_t number) {
    mlir::Value one = constant(1);
    addSums(one, one, number);
  }

  void zeros(uint64_t number) {
    mlir::Value zero = constant(0);
    auto unknown = builder.create<KeepOp>(place, builder.getI64Type(), mlir::ValueRange());
    put(unknown);
    addSums(unknown->getResult(0), zero, number);
  }

  void references(uint64_t number) {
    llvm::SmallVector<mlir::Value, 1> used;
    for (uint64_t i = 0; i < number; i++) {
      auto op = builder.create<ReferenceOp>(place, builder.getNoneType(), used);
      put(op);
      used.assign(1, op->getResult(0));
    }
  }

  void users(uint64_t number) {
    first = step({});
    second = step({});
    for (uint64_t i = 0; i < number; i++)
      keep(first);
  }

  void calls(uint64_t number) { addCaller(callee(), 1, number); }

  void callers(uint64_t number) {
    auto called = callee();
    for (uint64_t i = 0; i < number; i++)
      addCaller(called, i + 1, 1);
  }

  void symbolChain(uint64_t number) {
    for (uint64_t i = 0; i < number; i++)
      use(privateFunction(name(i)), i + 1);
    use(function(name(number)), number / 2);
  }

  void symbolStar(uint64_t number) {
    for (uint64_t i = 0; i < number; i++)
      privateFunction(name(i));
    addUsers(privateFunction(name(number)), 0, number / 2);
    addUsers(function(name(number + 1)), number / 2, number);
  }
};

} // namespace bench
